//! The packets of types, blank records, and values of blocks by their packets' letters, asked of both: rules L1 to L19, F5, F6.

use super::Pair;
use crate::making::calls;
use crate::making::random::Random;
use crate::second::blocks::RECORD;
use crate::second::face::Call;
use crate::second::reading::{forms_on, FORMS};

/// Lines and numbers that are none, some with the lowest byte of one.
const LINES: [u32; 10] = [0, 1, 2, 3, 4, 5, 255, 257, 0x0100_0002, u32::MAX];

/// Bytes, and wider numbers with the lowest byte of a type or a letter.
fn numbers() -> impl Iterator<Item = u32> {
    let wide = [
        256,
        256 + 65,
        256 + 116,
        0x1_0041,
        0x0100_0046,
        1 << 31,
        u32::MAX,
    ];
    (0..256).chain(wide)
}

/// Asks a number of random things, and this chunk's share of a sweep.
pub fn ask(pair: &mut Pair, seed: u64, items: usize) {
    let mut random = Random::seeded(0x0800_0000 + seed);
    if pair.is_whole() {
        every_packet(pair, seed, &mut random);
        every_letter(pair, seed, &mut random);
    }
    for _ in 0..items {
        let line = calls::line(&mut random);
        let (of, first) = (
            type_number(&mut random, line),
            type_number(&mut random, line),
        );
        let index = match random.below(20) {
            0 => random.draw() as u32,
            1..=6 => random.below(13) as u32,
            _ => random.below(2) as u32,
        };
        packet(pair, line, of, first, index);
        let block = filled(&mut random, line as u8);
        record(pair, line, of, first, &block);
        let block = filled(&mut random, line as u8).into_boxed_slice();
        let letter = letter(&mut random, block.first().copied().unwrap_or(0));
        let value = random.draw() as u32 >> random.below(32);
        values(pair, line, &block, letter, value);
    }
}

/// Mostly a type of the line, at times of another, any byte or a wider number.
fn type_number(random: &mut Random, line: u32) -> u32 {
    let line = match random.below(8) {
        0 => random.from_to(1, 3) as u8,
        _ => u8::try_from(line).unwrap_or(1),
    };
    let types: Vec<u8> = forms_on(line).map(|form| form.type_byte).collect();
    let known = random.one_of(&types);
    match random.below(20) {
        0 => random.draw() as u32,
        1 => u32::from(known) + (1 << random.from_to(8, 31)),
        2 => random.byte().into(),
        3 => 0,
        _ => known.into(),
    }
}

/// A record's block, at times of another line, damaged or of another length, and at times any bytes.
fn filled(random: &mut Random, line: u8) -> Vec<u8> {
    let line = if matches!(line, 1..=3) { line } else { 1 };
    let mut block = calls::block(random, line, None);
    if random.one_in(10) {
        block.iter_mut().for_each(|byte| *byte = random.byte());
    }
    block
}

/// Mostly a letter of the block's type, at times another or a wider number.
fn letter(random: &mut Random, type_byte: u8) -> u32 {
    let mut forms = FORMS.iter();
    let form = forms
        .find(|form| form.type_byte == type_byte)
        .unwrap_or(&FORMS[random.below(FORMS.len())]);
    let letters: Vec<u8> = form.letters().map(|(letter, _)| letter).collect();
    let letter = random.one_of(&letters);
    match random.below(12) {
        0 => random.draw() as u32,
        1 => u32::from(letter) + (1 << random.from_to(8, 31)),
        2 => random.byte().into(),
        _ => letter.into(),
    }
}

fn packet(pair: &mut Pair, line: u32, of: u32, first: u32, index: u32) {
    let call = Call::Packet(line, of, first, index);
    pair.on(call, &mut pair.lent(&[]));
}

fn record(pair: &mut Pair, line: u32, of: u32, first: u32, block: &[u8]) {
    let (mut state, mut out, mut block) = (pair.lent(&[]), pair.lent(&[]), pair.lent(block));
    let call = Call::Record(line, of, first);
    pair.call(call, &mut state, &mut out, &mut block);
}

/// Puts a value and asks for it, before and after.
fn values(pair: &mut Pair, line: u32, before: &[u8], letter: u32, value: u32) {
    let (mut state, mut out, mut block) = (pair.lent(&[]), pair.lent(&[]), pair.lent(before));
    let asked = pair.on(Call::Value(line, before, letter), &mut state);
    let put = Call::PutValue(line, letter, value);
    let answer = pair.call(put, &mut state, &mut out, &mut block);
    let after = block.bytes().to_vec().into_boxed_slice();
    let got = pair.on(Call::Value(line, &after, letter), &mut state);
    let refused = (asked.refusal, answer.refusal);
    assert_eq!(
        refused,
        (got.refusal, got.refusal),
        "{put:?} differs\nfrom in656_value"
    );
    let wanted = if got.refusal == 0 { value } else { 0 };
    assert_eq!(got.detail, wanted, "{put:?} differs\nfrom what is read");
}

/// Whether a number of a sweep belongs to this chunk.
fn is_of(seed: u64, number: u32) -> bool {
    u64::from(number % 100) == seed
}

/// Every index of every type on every line.
fn every_packet(pair: &mut Pair, seed: u64, random: &mut Random) {
    for of in numbers().filter(|of| is_of(seed, *of)) {
        for line in LINES {
            for index in (0..=12).chain([256, 1 << 24, u32::MAX]) {
                let first = type_number(random, line);
                packet(pair, line, of, first, index);
            }
            for length in [0, 1, RECORD - 1, RECORD, RECORD, RECORD + 1] {
                let first = type_number(random, line);
                record(pair, line, of, first, &vec![random.byte(); length]);
            }
        }
    }
}

/// Every letter in a block of every type, on every line.
fn every_letter(pair: &mut Pair, seed: u64, random: &mut Random) {
    for letter in numbers().filter(|letter| is_of(seed, *letter)) {
        for type_byte in 0..=255 {
            let mut block = vec![random.byte(); RECORD];
            block[0] = type_byte;
            for line in LINES {
                values(pair, line, &block, letter, random.draw() as u32);
            }
        }
    }
}
