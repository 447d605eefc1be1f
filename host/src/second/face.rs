//! The C face as `include/in656.h` has it: what a call answers, and each call with what is lent
//! to it. The second version stands behind it, and the library.

use std::fmt::{Debug, Formatter};

/// What a call answers: `in656_result`.
#[repr(C)]
#[derive(Debug, Clone, Copy, Default, PartialEq, Eq)]
pub struct Answer {
    pub refusal: u32,
    pub outcome: u32,
    pub detail: u32,
    pub contents: u32,
    pub place: u64,
    pub written: u64,
    pub number: u32,
    pub count: u32,
    pub lost: u32,
    pub record: u32,
    pub sum: u32,
    pub found: u32,
    pub unsent: u32,
    pub reserved: [u32; 5],
}

/// A call with the values and the bytes that it only reads.
#[derive(Clone, Copy)]
pub enum Call<'a> {
    /// line, frame
    Read(u32, &'a [u8]),
    /// line, record, number
    Write(u32, &'a [u8], u32),
    /// line, type, first letter, index
    Packet(u32, u32, u32, u32),
    /// line, type, first letter
    Record(u32, u32, u32),
    /// line, record, letter
    Value(u32, &'a [u8], u32),
    /// line, letter, value; the record block is lent
    PutValue(u32, u32, u32),
    GathererStart,
    GathererByte(u8),
    GathererHit,
    /// bytes, from
    Next(&'a [u8], usize),
    /// line
    DeskStart(u32),
    /// time
    DeskTick(u32),
    /// the record block is lent
    DeskQueue,
    /// record
    DeskSet(&'a [u8]),
    DeskKey(u32),
    DeskClearQueue,
    DeskClearSet,
    /// time, frame
    DeskHear(u32, &'a [u8]),
    /// time
    DeskDue(u32),
    DeskLook,
    /// index
    DeskWaiting(u32),
    /// line, time
    MasterStart(u32, u32),
    /// time, record
    MasterOffer(u32, &'a [u8]),
    /// time
    MasterTick(u32),
    /// time, frame
    MasterHear(u32, &'a [u8]),
    /// time
    MasterDue(u32),
    MasterLook,
    /// log, from
    LogRead(&'a [u8], usize),
    /// mark, time, bytes
    LogWrite(u32, u32, &'a [u8]),
    /// refusal
    RefusalWords(u32),
    /// outcome, detail
    DeskWords(u32, u32),
    /// outcome, detail
    MasterWords(u32, u32),
}

/// The lengths that the functions without arguments give: result, longest telegram, record,
/// gatherer, desk, master.
pub type Lengths = [usize; 6];

/// Something that answers the calls of the header.
pub trait Face: Sync {
    fn lengths(&self) -> Lengths;
    fn version(&self) -> u32;
    fn same_edition(&self, version: u32) -> u32;
    /// Makes a call that may change a state, an output and a record block; a call that takes
    /// fewer of them leaves the others alone.
    fn call(&self, call: Call, state: &mut [u8], out: &mut [u8], record: &mut [u8]) -> Answer;
}

impl<'a> Call<'a> {
    /// The name of the header's function, without `in656_`.
    pub fn name(&self) -> &'static str {
        match self {
            Call::Read(..) => "read",
            Call::Write(..) => "write",
            Call::Packet(..) => "packet",
            Call::Record(..) => "record",
            Call::Value(..) => "value",
            Call::PutValue(..) => "put_value",
            Call::GathererStart => "gatherer_start",
            Call::GathererByte(_) => "gatherer_byte",
            Call::GathererHit => "gatherer_hit",
            Call::Next(..) => "next",
            Call::DeskStart(_) => "desk_start",
            Call::DeskTick(_) => "desk_tick",
            Call::DeskQueue => "desk_queue",
            Call::DeskSet(_) => "desk_set",
            Call::DeskKey(_) => "desk_key",
            Call::DeskClearQueue => "desk_clear_queue",
            Call::DeskClearSet => "desk_clear_set",
            Call::DeskHear(..) => "desk_hear",
            Call::DeskDue(_) => "desk_due",
            Call::DeskLook => "desk_look",
            Call::DeskWaiting(_) => "desk_waiting",
            Call::MasterStart(..) => "master_start",
            Call::MasterOffer(..) => "master_offer",
            Call::MasterTick(_) => "master_tick",
            Call::MasterHear(..) => "master_hear",
            Call::MasterDue(_) => "master_due",
            Call::MasterLook => "master_look",
            Call::LogRead(..) => "log_read",
            Call::LogWrite(..) => "log_write",
            Call::RefusalWords(_) => "refusal_words",
            Call::DeskWords(..) => "desk_words",
            Call::MasterWords(..) => "master_words",
        }
    }

    /// Its numbers, and the bytes that it reads.
    fn inputs(&self) -> (Vec<usize>, &'a [u8]) {
        let wide = |numbers: &[u32]| numbers.iter().map(|number| *number as usize).collect();
        match *self {
            Call::GathererStart
            | Call::GathererHit
            | Call::DeskQueue
            | Call::DeskClearQueue
            | Call::DeskClearSet
            | Call::DeskLook
            | Call::MasterLook => (vec![], &[]),
            Call::GathererByte(byte) => (vec![byte.into()], &[]),
            Call::Next(bytes, from) | Call::LogRead(bytes, from) => (vec![from], bytes),
            Call::DeskSet(record) => (vec![], record),
            Call::DeskStart(number)
            | Call::DeskTick(number)
            | Call::DeskKey(number)
            | Call::DeskDue(number)
            | Call::DeskWaiting(number)
            | Call::MasterTick(number)
            | Call::MasterDue(number)
            | Call::RefusalWords(number) => (wide(&[number]), &[]),
            Call::MasterStart(one, two)
            | Call::DeskWords(one, two)
            | Call::MasterWords(one, two) => (wide(&[one, two]), &[]),
            Call::Record(line, of, first) => (wide(&[line, of, first]), &[]),
            Call::PutValue(line, letter, value) => (wide(&[line, letter, value]), &[]),
            Call::Packet(line, of, first, index) => (wide(&[line, of, first, index]), &[]),
            Call::Read(number, bytes)
            | Call::DeskHear(number, bytes)
            | Call::MasterOffer(number, bytes)
            | Call::MasterHear(number, bytes) => (wide(&[number]), bytes),
            Call::Write(one, bytes, two)
            | Call::Value(one, bytes, two)
            | Call::LogWrite(one, two, bytes) => (wide(&[one, two]), bytes),
        }
    }
}

impl Debug for Call<'_> {
    fn fmt(&self, to: &mut Formatter) -> std::fmt::Result {
        let (numbers, bytes) = self.inputs();
        let text = bytes.escape_ascii();
        write!(to, "in656_{} {numbers:?} b\"{text}\"", self.name())
    }
}
