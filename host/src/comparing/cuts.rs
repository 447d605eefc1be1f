//! Streams cut by both, item by item and by search: rules C1 to C8.

use super::{Lent, Pair};
use crate::making::calls;
use crate::making::captures::{capture, noise};
use crate::making::random::Random;
use crate::second::blocks::{GATHERER, MARK, TELEGRAM_AT};
use crate::second::face::Call;
use crate::second::numbers::TELEGRAM;

/// Cuts a number of streams in both ways.
pub fn cut(pair: &mut Pair, seed: u64, items: usize) {
    let mut random = Random::seeded(0x0300_0000 + seed);
    for _ in 0..items {
        let length = random.below(400);
        let bytes = match random.below(4) {
            0 => noise(&mut random, length),
            _ => {
                let line = random.from_to(1, 3) as u8;
                capture(&mut random, line, length).split_off(1)
            }
        };
        let bytes = bytes.into_boxed_slice();
        unstarted(pair, &mut random);
        let hits = random.one_in(3);
        let stepped = by_step(pair, &mut random, &bytes, hits);
        let found = by_search(pair, &bytes, 0);
        if !hits {
            assert_eq!(stepped, found, "step and search cut {bytes:?} alike");
        }
        for from in [random.below(bytes.len() + 3), usize::MAX - random.below(3)] {
            by_search(pair, &bytes, from);
        }
    }
}

/// A byte and a hit on a block that was never started: zeroed, random, with a mark that is nearly right, or as the block was
/// before there was a mark.
fn unstarted(pair: &mut Pair, random: &mut Random) {
    let mut block: Vec<u8> = (0..GATHERER).map(|_| random.byte()).collect();
    match random.below(6) {
        0 => block.fill(0),
        1 => block.splice(..MARK.len(), *MARK).for_each(drop),
        2 => {
            block.splice(..MARK.len(), *MARK).for_each(drop);
            calls::change(random, block.get_mut(..=MARK.len()).unwrap_or_default());
        }
        3 => {
            block.fill(0);
            block.splice(..MARK.len(), *MARK).for_each(drop);
            calls::change(random, &mut block);
        }
        4 => block = [&[random.below(66) as u8][..], &[b'A'; 66]].concat(),
        _ => {}
    }
    let byte = random.byte();
    for call in [Call::GathererByte(byte), Call::GathererHit] {
        pair.on(call, &mut pair.lent(&block));
    }
}

/// The telegrams handed out byte by byte, at times with hits and damaged states among them.
fn by_step(pair: &mut Pair, random: &mut Random, bytes: &[u8], hits: bool) -> Vec<Vec<u8>> {
    let length = if random.one_in(50) {
        random.below(GATHERER + 5)
    } else {
        GATHERER
    };
    let mut state = pair.lent(&vec![random.byte(); length]);
    pair.on(Call::GathererStart, &mut state);
    if length != GATHERER {
        state = pair.lent(&[0; GATHERER]);
        pair.on(Call::GathererStart, &mut state);
    }
    let mut telegrams = Vec::new();
    for byte in bytes {
        if hits && random.one_in(40) {
            pair.on(Call::GathererHit, &mut state);
        }
        if random.one_in(300) {
            damaged_step(pair, random, &state, *byte);
        }
        let answer = pair.on(Call::GathererByte(*byte), &mut state);
        if answer.outcome == TELEGRAM {
            let behind = state.bytes().get(TELEGRAM_AT..).unwrap_or_default();
            let telegram = behind.get(..answer.written as usize).unwrap_or_default();
            telegrams.push(telegram.to_vec());
        }
    }
    telegrams
}

/// A byte and a hit on a damaged state.
fn damaged_step(pair: &mut Pair, random: &mut Random, state: &Lent, byte: u8) {
    for call in [Call::GathererByte(byte), Call::GathererHit] {
        let damaged = calls::damage(random, state.bytes());
        let mut damaged = pair.lent(&damaged);
        pair.on(call, &mut damaged);
    }
}

/// The telegrams found by search from an index on.
fn by_search(pair: &mut Pair, bytes: &[u8], mut from: usize) -> Vec<Vec<u8>> {
    let mut telegrams = Vec::new();
    let mut none = pair.lent(&[]);
    loop {
        let answer = pair.on(Call::Next(bytes, from), &mut none);
        if answer.outcome == 0 {
            return telegrams;
        }
        let start = answer.place as usize;
        from = start + answer.written as usize;
        telegrams.push(bytes.get(start..from).unwrap_or_default().to_vec());
    }
}
