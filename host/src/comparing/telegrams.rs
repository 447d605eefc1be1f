//! Frames read and records written by both: rules R1 to R15, W1 to W8.

use super::Pair;
use crate::making::calls;
use crate::making::random::Random;
use crate::making::telegrams::of_form;
use crate::second::blocks::{record_block, RECORD};
use crate::second::desk::ROOM;
use crate::second::face::Call;
use crate::second::framing::seal;
use crate::second::reading::{forms_on, read as read_telegram, Form};
use crate::second::records::Record;

/// Reads a number of frames of every kind and of every length up to 80, and this chunk's share of a sweep.
pub fn read(pair: &mut Pair, seed: u64, items: usize) {
    let mut random = Random::seeded(0x0100_0000 + seed);
    if pair.is_whole() {
        every_byte(pair, seed, &mut random);
    }
    for index in 0..items {
        let line = calls::line(&mut random);
        let frame = calls::frame(&mut random, line as u8, index).into_boxed_slice();
        let length = if random.one_in(100) {
            random.below(80)
        } else {
            RECORD
        };
        read_one(pair, line, &frame, &vec![random.byte(); length]);
    }
}

fn read_one(pair: &mut Pair, line: u32, frame: &[u8], block: &[u8]) {
    let mut record = pair.lent(block);
    let (mut state, mut out) = (pair.lent(&[]), pair.lent(&[]));
    pair.call(Call::Read(line, frame), &mut state, &mut out, &mut record);
}

/// The forms of each line.
fn forms() -> impl Iterator<Item = (u8, &'static Form)> {
    (1..=3).flat_map(|line| forms_on(line).map(move |form| (line, form)))
}

/// Whether a number of a sweep belongs to this chunk; the first hundred chunks share out all of them.
fn is_of(seed: u64, number: u32) -> bool {
    u64::from(number % 100) == seed
}

/// Reads a telegram of each form with every byte at every place; the checksum is made right where that is possible.
fn every_byte(pair: &mut Pair, seed: u64, random: &mut Random) {
    for byte in (0..=255u8).filter(|byte| is_of(seed, u32::from(*byte))) {
        for (line, form) in forms() {
            let number = random.one_of(b"01");
            let telegram = of_form(random, form, number);
            for place in 0..telegram.len() {
                let mut frame = telegram.clone();
                frame[place] = byte;
                if place + 3 < telegram.len() {
                    seal(&mut frame);
                }
                read_one(
                    pair,
                    line.into(),
                    &frame.into_boxed_slice(),
                    &[byte; RECORD],
                );
            }
        }
    }
}

/// Numbers to write: all that one or two characters or three digits say, and those next to the
/// limits of more.
fn every_number() -> impl Iterator<Item = u32> {
    let limits = [
        7_999, 8_000, 9_999, 10_000, 99_999, 100_000, 999_999, 1_000_000,
    ];
    (0..1_100)
        .chain(0x1F00..0x4800)
        .chain(limits)
        .chain([1 << 24, 1 << 31, u32::MAX])
}

/// Writes a record of each form with every number as each of its values.
fn every_value(pair: &mut Pair, seed: u64, random: &mut Random) {
    for number in every_number().filter(|number| is_of(seed, *number)) {
        for (line, form) in forms() {
            let telegram = of_form(random, form, b'0');
            let reading = read_telegram(line, &telegram).expect("a made telegram");
            let record = Record::read(line, &reading);
            for place in 0..record.values.len() {
                let mut record = record.clone();
                record.values[place] = number;
                write_one(pair, line.into(), &record_block(&record), 1, &[0; ROOM]);
            }
        }
    }
}

fn write_one(pair: &mut Pair, line: u32, block: &[u8], number: u32, room: &[u8]) {
    let mut out = pair.lent(room);
    let (mut state, mut record) = (pair.lent(&[]), pair.lent(&[]));
    let call = Call::Write(line, block, number);
    pair.call(call, &mut state, &mut out, &mut record);
}

/// Writes a number of records, with every room up to 70, and this chunk's share of a sweep.
pub fn write(pair: &mut Pair, seed: u64, items: usize) {
    let mut random = Random::seeded(0x0200_0000 + seed);
    if pair.is_whole() {
        every_value(pair, seed, &mut random);
    }
    for index in 0..items {
        let line = calls::line(&mut random);
        let near = if matches!(line, 1..=3) { line as u8 } else { 1 };
        let block = calls::block(&mut random, near, None).into_boxed_slice();
        let number = calls::number(&mut random);
        write_one(pair, line, &block, number, &vec![random.byte(); index % 71]);
    }
}
