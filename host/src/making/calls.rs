//! Inputs for the calls: lines, numbers, frames, record blocks and damaged states.

use crate::making::captures::noise;
use crate::making::damage::{damaged, wrong_count};
use crate::making::random::Random;
use crate::making::telegrams::any_form;
use crate::second::blocks::{record_block, RECORD};
use crate::second::framing::{count, seal};
use crate::second::reading::{forms_on, read, CR, LF, SET};
use crate::second::records::Record;

/// Mostly one of the three lines, at times another number, also one whose lowest byte is a line.
pub fn line(random: &mut Random) -> u32 {
    match random.below(40) {
        0 => [0, 4, 49, 255, 257, 258, 259, 0x0100_0001, u32::MAX][random.below(9)],
        _ => random.from_to(1, 3) as u32,
    }
}

/// Mostly 0 or 1, at times another number, also one whose lowest byte is 0 or 1.
pub fn number(random: &mut Random) -> u32 {
    match random.below(30) {
        0 => [2, 48, 49, 255, 256, 257, 0x0100_0000, u32::MAX][random.below(8)],
        _ => random.below(2) as u32,
    }
}

/// A frame of a length with a right count and a right sum.
fn of_length(random: &mut Random, length: usize) -> Vec<u8> {
    let mut frame: Vec<u8> = (0..length).map(|_| random.one_of(SET.as_bytes())).collect();
    let marks = [
        (0, LF),
        (3, random.one_of(b"AN1rtc5oGFnBKO")),
        (4, random.one_of(b"01")),
    ];
    for (index, mark) in marks.into_iter().chain([(length.wrapping_sub(1), CR)]) {
        if let Some(byte) = frame.get_mut(index) {
            *byte = mark;
        }
    }
    count(&mut frame);
    seal(&mut frame);
    frame
}

/// A frame: random bytes, valid, one to three bytes changed, a wrong count with a right sum,
/// damaged otherwise, of another line, or of any length up to 80.
pub fn frame(random: &mut Random, line: u8, index: usize) -> Vec<u8> {
    let mut frame = any_form(random, line);
    match random.below(10) {
        0 => {
            let length = random.below(81);
            return (0..length).map(|_| random.byte()).collect();
        }
        1 => return noise(random, index % 81),
        2 => return of_length(random, index % 81),
        3 => return damaged(random, line),
        4 | 5 => change(random, &mut frame),
        6 => {
            wrong_count(random, &mut frame);
            seal(&mut frame);
        }
        7 => {
            let other = random.from_to(1, 3) as u8;
            return any_form(random, other);
        }
        _ => {}
    }
    frame
}

/// Numbers next to the limits of what a state may hold.
const LIMITS: [u8; 12] = [0, 1, 2, 3, 4, 8, 9, 10, 65, 66, 67, 255];

/// Changes one to three bytes to any byte, to a near one, or to one next to a limit.
pub fn change(random: &mut Random, bytes: &mut [u8]) {
    for _ in 0..random.from_to(1, 3) {
        let index = random.below(bytes.len());
        if let Some(byte) = bytes.get_mut(index) {
            *byte = match random.below(4) {
                0 => *byte ^ 1 << random.below(8),
                1 => random.one_of(&LIMITS),
                2 => random.one_of(SET.as_bytes()),
                _ => random.byte(),
            };
        }
    }
}

/// Damages a state: other bytes, often among its numbers, or another length, often one byte less or
/// some more.
pub fn damage(random: &mut Random, state: &[u8]) -> Vec<u8> {
    let mut damaged = state.to_vec();
    match random.below(8) {
        0 => damaged.truncate(random.below(state.len() + 1)),
        1 => damaged.resize(
            (state.len() + random.below(5)).saturating_sub(1),
            random.byte(),
        ),
        2..=4 => change(random, damaged.get_mut(..13).unwrap_or_default()),
        _ => change(random, &mut damaged),
    }
    damaged
}

/// A record of a type on a line. It is of any type where no type is wanted or the line does not
/// have it, at times of another line, and at times with a value out of its range.
pub fn record(random: &mut Random, line: u8, wanted: Option<u8>) -> Record {
    let line = if random.one_in(12) {
        random.from_to(1, 3) as u8
    } else {
        line
    };
    let wanted = wanted.filter(|wanted| forms_on(line).any(|form| form.type_byte == *wanted));
    let mut record = loop {
        let telegram = any_form(random, line);
        match read(line, &telegram) {
            Ok(reading) if wanted.is_none_or(|wanted| reading.type_byte == wanted) => {
                break Record::read(line, &reading)
            }
            Ok(_) => {}
            Err(refusal) => panic!("a made telegram is refused: {refusal:?}"),
        }
    };
    if random.one_in(8) {
        let index = random.below(record.values.len());
        if let Some(value) = record.values.get_mut(index) {
            *value = match random.below(4) {
                0 => random.below(256) as u32,
                1 => random.below(1_100_000) as u32,
                2 => value.wrapping_add(1 << random.below(32)),
                _ => random.draw() as u32,
            };
        }
    }
    record
}

/// A record's block, at times damaged or of another length.
pub fn block(random: &mut Random, line: u8, wanted: Option<u8>) -> Vec<u8> {
    let mut block = record_block(&record(random, line, wanted)).to_vec();
    match random.below(40) {
        0 => change(random, &mut block),
        1 => block.truncate(random.below(RECORD)),
        2 => block.resize(RECORD + random.below(8), 0),
        3 => change(random, block.get_mut(..1).unwrap_or_default()),
        _ => {}
    }
    block
}
