//! Records and states as bytes of a fixed length: records from the words of `include/in656.h`,
//! states with their fields in the order that the crate `blocks` states. Numbers of 32 bits have
//! their highest byte first.

use crate::second::desk::Desk;
use crate::second::master::Master;
use crate::second::reading::FORMS;
use crate::second::records::Record;
use std::sync::LazyLock;

pub const RECORD: usize = 64;
pub const GATHERER: usize = 71;
pub const DESK: usize = 653;
pub const MASTER: usize = 77;
/// The bytes of a state's stored answer, and of a gathered telegram.
const ANSWER: usize = 66;
/// What a started gatherer's block begins with; then the count of its bytes, then the bytes.
pub const MARK: &[u8; 4] = b"656G";
/// Where a gatherer's bytes begin.
pub const TELEGRAM_AT: usize = MARK.len() + 1;
/// The places of a desk's queue.
const PLACES: usize = 8;

/// How many values a record of each type has, where there is such a type.
static COUNTS: LazyLock<[Option<usize>; 256]> = LazyLock::new(|| {
    std::array::from_fn(|type_byte| {
        let mut forms = FORMS.iter();
        let form = forms.find(|form| usize::from(form.type_byte) == type_byte)?;
        Some(form.letters().count())
    })
});

/// The block of a record.
pub fn record_block(record: &Record) -> [u8; RECORD] {
    let mut block = [0; RECORD];
    let (type_byte, values) = block.split_at_mut(1);
    type_byte.fill(record.type_byte);
    for (place, value) in values.chunks_exact_mut(4).zip(&record.values) {
        place.copy_from_slice(&value.to_be_bytes());
    }
    block
}

/// Where the value of the packet at an index stands.
fn value_place(index: usize) -> std::ops::Range<usize> {
    1 + 4 * index..5 + 4 * index
}

/// The value of the packet at an index.
pub fn value_in(block: &[u8], index: usize) -> u32 {
    let mut rest = Rest(block.get(value_place(index)).unwrap_or_default());
    rest.number()
}

pub fn put_value(block: &mut [u8], index: usize, value: u32) {
    if let Some(place) = block.get_mut(value_place(index)) {
        place.copy_from_slice(&value.to_be_bytes());
    }
}

/// The record of a block: 12 where the length or the type is wrong, 13 where a byte that the
/// record does not use is not 0.
pub fn record_in(block: &[u8]) -> Result<Record, u8> {
    if block.len() != RECORD {
        return Err(12);
    }
    let mut rest = Rest(block);
    let type_byte = rest.byte();
    let count = COUNTS[usize::from(type_byte)].ok_or(12)?;
    let values = (0..count).map(|_| rest.number()).collect();
    if rest.0.iter().any(|byte| *byte != 0) {
        return Err(13);
    }
    Ok(Record { type_byte, values })
}

/// The bytes of a block that are not yet taken; 0 after the last.
struct Rest<'a>(&'a [u8]);

impl<'a> Rest<'a> {
    fn part(&mut self, length: usize) -> &'a [u8] {
        let (part, rest) = self.0.split_at(length.min(self.0.len()));
        self.0 = rest;
        part
    }

    fn byte(&mut self) -> u8 {
        self.part(1).first().copied().unwrap_or(0)
    }

    fn number(&mut self) -> u32 {
        let wide = |sum: u32, byte: &u8| sum << 8 | u32::from(*byte);
        self.part(4).iter().fold(0, wide)
    }

    /// A byte that is 0 or 1.
    fn flag(&mut self) -> Option<bool> {
        match self.byte() {
            0 => Some(false),
            1 => Some(true),
            _ => None,
        }
    }

    fn record(&mut self) -> Option<Record> {
        record_in(self.part(RECORD)).ok()
    }
}

/// The desk of a block with all places of its queue; none where the bytes make no desk.
pub fn desk_in(block: &[u8]) -> Option<Desk> {
    if block.len() != DESK {
        return None;
    }
    let mut rest = Rest(block);
    let (line, good, last, key) = (rest.byte(), rest.flag()?, rest.byte(), rest.byte());
    let t1 = rest.number();
    let (kept, queued, set) = (rest.byte().into(), rest.byte().into(), rest.flag()?);
    let stored = rest.part(ANSWER).to_vec();
    let requested = if set {
        Some(rest.record()?)
    } else if rest.part(RECORD).iter().all(|byte| *byte == 0) {
        None
    } else {
        return None;
    };
    let places = (0..PLACES).map(|_| rest.record());
    Some(Desk {
        line,
        good,
        last,
        t1,
        kept,
        stored,
        requested,
        queued,
        queue: places.collect::<Option<_>>()?,
        key,
    })
}

/// The block of a desk with all places of its queue.
pub fn desk_block(desk: &Desk) -> Vec<u8> {
    let flag = u8::from(desk.requested.is_some());
    let mut block = Vec::with_capacity(DESK);
    block.extend([desk.line, desk.good.into(), desk.last, desk.key]);
    block.extend(desk.t1.to_be_bytes());
    block.extend([desk.kept as u8, desk.queued as u8, flag]);
    block.extend(&desk.stored);
    match &desk.requested {
        Some(record) => block.extend(record_block(record)),
        None => block.extend([0; RECORD]),
    }
    for record in &desk.queue {
        block.extend(record_block(record));
    }
    block
}

/// The places of a desk's queue at its start.
pub fn blank_places() -> Vec<Record> {
    vec![Record::with(b'A', 0); PLACES]
}

/// The places behind the waiting records keep what they held. When a record leaves, each place
/// takes what the next one holds, so the last stands twice; a queued record overwrites its place.
/// A queue that is cleared has its places as at the start.
pub fn places(before: &[Record], left: bool, desk: &Desk) -> Vec<Record> {
    if desk.queue.is_empty() {
        return blank_places();
    }
    let mut places = before.to_vec();
    if left {
        places.remove(0);
        places.extend(places.last().cloned());
    }
    for (place, record) in places.iter_mut().zip(&desk.queue).take(desk.queued) {
        *place = record.clone();
    }
    places
}

/// The master of a block; none where the bytes make no master.
pub fn master_in(block: &[u8]) -> Option<Master> {
    if block.len() != MASTER {
        return None;
    }
    let mut rest = Rest(block);
    let (line, good, number, count) = (rest.byte(), rest.flag()?, rest.byte(), rest.byte());
    let (t0, t2) = (rest.number(), rest.number());
    let operation = rest.flag()?;
    let record = rest.record()?;
    Some(Master {
        line,
        good,
        number,
        count,
        record,
        t0,
        t2,
        operation,
    })
}

/// The block of a master.
pub fn master_block(master: &Master) -> Vec<u8> {
    let mut block = Vec::with_capacity(MASTER);
    block.extend([master.line, master.good.into(), master.number, master.count]);
    block.extend(master.t0.to_be_bytes());
    block.extend(master.t2.to_be_bytes());
    block.push(master.operation.into());
    block.extend(record_block(&master.record));
    block
}
