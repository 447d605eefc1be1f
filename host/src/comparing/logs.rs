//! Logs read, replayed and written by both.

use super::{Lent, Pair};
use crate::making::calls;
use crate::making::captures::noise;
use crate::making::logs::{log, small, spoil};
use crate::making::random::Random;
use crate::second::blocks::{DESK, RECORD};
use crate::second::desk::ROOM;
use crate::second::face::Call;
use crate::second::logs::{Mark, HEAD};
use crate::second::reading::LONGEST;

/// Replays a number of logs, half of them spoiled. The first chunks also replay a small log with each
/// of its bytes replaced by every value.
pub fn replay(pair: &mut Pair, seed: u64, items: usize) {
    let mut random = Random::seeded(0x0600_0000 + seed);
    for _ in 0..items {
        let line = random.from_to(1, 3) as u8;
        let records = [3, 12, 60][random.below(3)];
        let records = random.below(records);
        let mut bytes = log(&mut random, line, records);
        if random.one_in(2) {
            spoil(&mut random, &mut bytes);
        }
        run(pair, line.into(), &bytes.into_boxed_slice());
        let none = noise(&mut random, 80);
        for from in [0, random.below(90), usize::MAX - random.below(90)] {
            pair.on(Call::LogRead(&none, from), &mut pair.lent(&[]));
        }
    }
    let places = if pair.is_whole() { small().len() } else { 0 };
    for index in (0..places).filter(|index| *index as u64 % 16 == seed) {
        each_value(pair, index);
    }
}

/// The small log with a byte replaced by every value.
fn each_value(pair: &mut Pair, index: usize) {
    let mut changed = small();
    for value in 0..=255 {
        if let Some(byte) = changed.get_mut(index) {
            *byte = value;
        }
        run(pair, 1, &changed);
    }
}

/// Reads a log record by record, and runs a fresh desk over it.
fn run(pair: &mut Pair, line: u32, log: &[u8]) {
    let (mut none, mut desk) = (pair.lent(&[]), pair.lent(&[0; DESK]));
    let (mut out, mut block) = (pair.lent(&[b'#'; ROOM]), pair.lent(&[0; RECORD]));
    pair.on(Call::DeskStart(line), &mut desk);
    let mut from = 0;
    loop {
        let answer = pair.on(Call::LogRead(log, from), &mut none);
        if answer.outcome == 0 {
            return;
        }
        let (start, time) = (answer.place as usize, answer.detail);
        from = start + answer.written as usize;
        let bytes = log.get(start..from).expect("they lie in the log");
        match Mark::numbered(answer.outcome) {
            Some(Mark::Master) => {
                let call = Call::DeskHear(time, bytes);
                pair.call(call, &mut desk, &mut out, &mut block);
            }
            Some(Mark::Hit) => {
                pair.on(Call::DeskTick(time), &mut desk);
            }
            _ => {}
        }
    }
}

/// Writes a number of records, into rooms of every length up to one more than the longest.
pub fn write(pair: &mut Pair, seed: u64, items: usize) {
    let mut random = Random::seeded(0x0700_0000 + seed);
    for _ in 0..items {
        let mark = match random.below(20) {
            0 => [0, 4, 255, 256, 257, 0x0100_0001, u32::MAX][random.below(7)],
            _ => random.from_to(1, 3) as u32,
        };
        let length = match (mark, random.below(8)) {
            (3, 1..) => 0,
            (_, 0) => [65, 66, 67, 68, 255, 256, 257, 322][random.below(8)],
            _ => random.below(LONGEST + 1),
        };
        let mut bytes = noise(&mut random, length);
        if random.one_in(4) && length > 0 {
            calls::change(&mut random, &mut bytes);
        }
        let room = match random.below(3) {
            0 => (HEAD + length).saturating_sub(random.below(3)),
            1 => random.below(HEAD + LONGEST + 2),
            _ => HEAD + LONGEST,
        };
        let time = random.draw() as u32;
        one(pair, Call::LogWrite(mark, time, &bytes), room);
    }
}

/// Writes a record, and reads it back where it was written.
fn one(pair: &mut Pair, call: Call, room: usize) {
    let mut none: Lent = pair.lent(&[]);
    let (mut out, mut block) = (pair.lent(&vec![b'#'; room]), pair.lent(&[]));
    let answer = pair.call(call, &mut none, &mut out, &mut block);
    let Call::LogWrite(mark, time, bytes) = call else {
        return;
    };
    if answer.refusal == 0 {
        let written = out.bytes().get(..answer.written as usize);
        let read = pair.on(Call::LogRead(written.unwrap_or_default(), 0), &mut none);
        assert_eq!(
            (read.outcome, read.detail),
            (mark, time),
            "{call:?} differs"
        );
        let read = written.and_then(|record| record.get(read.place as usize..));
        assert_eq!(read, Some(bytes), "{call:?} differs");
    }
}
