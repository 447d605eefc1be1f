//! The second version behind the C face: what `include/in656.h` says of each call, made of the
//! second version's reading, writing, cutting, desk, master and log.

mod desks;
mod masters;
mod packets;
mod words;

use crate::second::blocks::{self, record_block, record_in, MARK};
use crate::second::cutting::{next_telegram, Cutter, Heard as Item};
use crate::second::desk::ROOM;
use crate::second::face::{Answer, Call, Face, Lengths};
use crate::second::faults::is_on;
use crate::second::logs::{entry_at, write, Entry, Mark, HEAD, UNKNOWN_MARK};
use crate::second::numbers::{DUE_AFTER, DUE_NEVER, TELEGRAM, VERSION};
use crate::second::reading::{form_of, read, LONGEST};
use crate::second::records::Record;
use masters::on_master;

/// The second version.
pub struct Second;

/// A refused call, with a place.
fn refused(refusal: u8, place: usize) -> Answer {
    Answer {
        refusal: refusal.into(),
        place: place as u64,
        ..Answer::default()
    }
}

fn outcome(outcome: u32) -> Answer {
    Answer {
        outcome,
        ..Answer::default()
    }
}

/// One of the three lines; every other number, however large, is no line.
fn line_in(line: u32) -> Option<u8> {
    matches!(line, 1..=3).then_some(line as u8)
}

/// Puts a record into its block.
fn fill(block: &mut [u8], record: &Record) -> u32 {
    block.copy_from_slice(&record_block(record));
    1
}

/// What a block means to a call that takes a record. A block of no type is a record that no end
/// sends (12); a block with a byte in an unused place is a record out of its range (13).
fn meant(block: &[u8]) -> Record {
    record_in(block).unwrap_or_else(|refusal| match (refusal, block) {
        (13, [type_byte, values @ ..]) => Record {
            type_byte: *type_byte,
            values: vec![u32::MAX; values.len()],
        },
        _ => Record {
            type_byte: 0,
            values: Vec::new(),
        },
    })
}

/// Puts bytes into the front of the output, and says how many they are.
fn send(out: &mut [u8], bytes: &[u8]) -> u64 {
    let front = out.get_mut(..bytes.len()).expect("the room is checked");
    front.copy_from_slice(bytes);
    bytes.len() as u64
}

/// An answer to a heard frame, with the refusal of the frame where it is refused.
fn contents(line: u8, frame: &[u8], answer: Answer) -> Answer {
    match read(line, frame) {
        Ok(_) => answer,
        Err((refusal, place)) => Answer {
            contents: refusal.into(),
            place: place as u64,
            ..answer
        },
    }
}

/// What is due of an end: after how many milliseconds, or never.
fn due_of(due: Result<Option<u32>, u8>) -> Answer {
    match due {
        Ok(Some(after)) => Answer {
            detail: after + u32::from(is_on("due a millisecond late")),
            ..outcome(DUE_AFTER)
        },
        Ok(None) => outcome(DUE_NEVER),
        Err(refusal) => refused(refusal, 0),
    }
}

fn reading(line: u32, frame: &[u8], block: &mut [u8]) -> Answer {
    let Some(line) = line_in(line) else {
        return refused(15, 0);
    };
    if block.len() != blocks::RECORD {
        return refused(14, 0);
    }
    match read(line, frame) {
        Ok(reading) => Answer {
            number: reading.number.into(),
            record: fill(block, &Record::read(line, &reading)),
            ..Answer::default()
        },
        Err((refusal, place)) => refused(refusal, place),
    }
}

fn writing(line: u32, block: &[u8], number: u32, out: &mut [u8]) -> Answer {
    let Some(line) = line_in(line) else {
        return refused(15, 0);
    };
    let record = meant(block);
    if form_of(line, record.type_byte).is_none() {
        return refused(12, 0);
    }
    let permitted = record.telegram(line, u8::from(number == 1));
    let Some(bytes) = permitted.filter(|_| number < 2) else {
        return refused(13, 0);
    };
    if out.len() < bytes.len() {
        return refused(14, 0);
    }
    Answer {
        written: send(out, &bytes),
        ..Answer::default()
    }
}

/// A gatherer's block is its mark, the count of gathered bytes and 66 bytes, which keep what they
/// held where none is gathered.
fn gathering(state: &mut [u8], item: Item) -> Answer {
    if state.len() != blocks::GATHERER {
        return refused(15, 0);
    }
    let (mark, rest) = state.split_at_mut(MARK.len());
    let (count, bytes) = rest.split_at_mut(1);
    let held = usize::from(count.first().copied().unwrap_or(0));
    let started = mark == MARK || is_on("gatherer without its mark");
    if !started || held >= LONGEST {
        return refused(15, 0);
    }
    let mut cutter = Cutter::holding(bytes.get(..held).unwrap_or(&[]));
    let ended = cutter.hear(item);
    let gathered = ended.as_deref().unwrap_or(cutter.gathered());
    let written = send(bytes, gathered);
    count.fill(if ended.is_some() { 0 } else { written as u8 });
    match ended {
        Some(_) => Answer {
            written,
            ..outcome(TELEGRAM)
        },
        None => Answer::default(),
    }
}

fn gatherer_start(state: &mut [u8]) -> Answer {
    if state.len() != blocks::GATHERER {
        return refused(15, 0);
    }
    state.fill(0);
    send(state, MARK);
    Answer::default()
}

fn searching(bytes: &[u8], from: usize) -> Answer {
    match next_telegram(bytes, from) {
        Some((offset, telegram)) => Answer {
            place: offset as u64,
            written: telegram.len() as u64,
            ..outcome(TELEGRAM)
        },
        None => Answer::default(),
    }
}

/// The record of a log that begins at an index: its mark, its time, and where its bytes lie.
fn log_reading(log: &[u8], from: usize) -> Answer {
    match entry_at(log, from) {
        Ok(Some(entry)) => Answer {
            detail: entry.time,
            place: (from + HEAD) as u64,
            written: entry.bytes.len() as u64,
            ..outcome(entry.mark.number())
        },
        Ok(None) => Answer::default(),
        Err((refusal, place)) => refused(refusal, place),
    }
}

fn log_writing(mark: u32, time: u32, bytes: &[u8], out: &mut [u8]) -> Answer {
    let Some(mark) = Mark::numbered(mark) else {
        return refused(UNKNOWN_MARK, 0);
    };
    match write(&Entry { mark, time, bytes }, out) {
        Ok(length) => Answer {
            written: length as u64,
            ..Answer::default()
        },
        Err(refusal) => refused(refusal, 0),
    }
}

/// The room that a call has: none where the record block has another length.
fn room(out: &[u8], block: &[u8]) -> usize {
    if block.len() == blocks::RECORD {
        out.len()
    } else {
        0
    }
}

impl Face for Second {
    fn lengths(&self) -> Lengths {
        let result = std::mem::size_of::<Answer>();
        let ends = [blocks::GATHERER, blocks::DESK, blocks::MASTER];
        [result, ROOM, blocks::RECORD, ends[0], ends[1], ends[2]]
    }

    fn version(&self) -> u32 {
        VERSION
    }

    /// The same edition, and calls that this version has.
    fn same_edition(&self, version: u32) -> u32 {
        let parts = |version: u32| (version / 65_536, version % 65_536 / 256);
        let ((edition, calls), (own, has)) = (parts(version), parts(VERSION));
        (edition == own && calls <= has).into()
    }

    fn call(&self, call: Call, state: &mut [u8], out: &mut [u8], record: &mut [u8]) -> Answer {
        match call {
            Call::Read(line, frame) => reading(line, frame, record),
            Call::Write(line, block, number) => writing(line, block, number, out),
            Call::Packet(line, of, _, index) => packets::packet(line, of, index),
            Call::Record(line, of, _) => packets::blank(line, of, record),
            Call::Value(line, block, letter) => packets::value(line, block, letter),
            Call::PutValue(line, letter, value) => packets::put(line, record, letter, value),
            Call::GathererStart => gatherer_start(state),
            Call::GathererByte(byte) => gathering(state, Item::Byte(byte)),
            Call::GathererHit => gathering(state, Item::Hit),
            Call::Next(bytes, from) => searching(bytes, from),
            Call::DeskStart(line) => desks::start(state, line),
            Call::DeskTick(time) => desks::tick(state, time),
            Call::DeskQueue => desks::queue(state, record),
            Call::DeskSet(block) => desks::set(state, block),
            Call::DeskKey(key) => desks::turn_key(state, key),
            Call::DeskClearQueue => desks::clear_queue(state),
            Call::DeskClearSet => desks::clear_set(state),
            Call::DeskHear(time, frame) => desks::hear(state, time, frame, out, record),
            Call::DeskDue(time) => desks::due(state, time),
            Call::DeskLook => desks::look(state, record),
            Call::DeskWaiting(index) => desks::waiting(state, index, record),
            Call::MasterStart(line, time) => masters::start(state, line, time),
            Call::MasterOffer(time, block) => on_master(state, out, record, |master, room| {
                master.offer(time, room, meant(block))
            }),
            Call::MasterTick(time) => {
                on_master(state, out, record, |master, room| master.tick(time, room))
            }
            Call::MasterHear(time, frame) => masters::hear(state, time, frame, out, record),
            Call::MasterDue(time) => masters::due(state, time),
            Call::MasterLook => masters::look(state, record),
            Call::LogRead(log, from) => log_reading(log, from),
            Call::LogWrite(mark, time, bytes) => log_writing(mark, time, bytes, out),
            Call::RefusalWords(refusal) => words::of_refusal(refusal, out),
            Call::DeskWords(outcome, detail) => words::of_desk(outcome, detail, out),
            Call::MasterWords(outcome, detail) => words::of_master(outcome, detail, out),
        }
    }
}
