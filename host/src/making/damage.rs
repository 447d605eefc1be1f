//! Damages telegrams in many ways.

use crate::making::random::Random;
use crate::making::telegrams::any_form;
use crate::second::framing::{count, put, seal};
use crate::second::reading::{CR, LF, LONGEST, SET};

/// A way to damage a telegram.
pub type Damage = fn(&mut Random, &mut Vec<u8>);

/// The ways to damage a telegram, each with its name.
pub const DAMAGES: &[(&str, Damage)] = &[
    ("byte replaced", |random, telegram| {
        replaced(random, telegram)
    }),
    ("byte removed", removed),
    ("byte inserted", inserted),
    ("bytes exchanged", |random, telegram| {
        exchanged(random, telegram)
    }),
    ("wrong count", |random, telegram| {
        wrong_count(random, telegram)
    }),
    ("wrong count, sealed", |random, telegram| {
        wrong_count(random, telegram);
        seal(telegram);
    }),
    ("byte replaced, sealed", |random, telegram| {
        replaced(random, telegram);
        seal(telegram);
    }),
    ("bytes exchanged, sealed", |random, telegram| {
        exchanged(random, telegram);
        seal(telegram);
    }),
    ("other number, sealed", |random, telegram| {
        put(telegram, 4, &[random.byte()]);
        seal(telegram);
    }),
    ("other type, sealed", |random, telegram| {
        put(telegram, 3, &[random.one_of(b"AN1rtc5oGFnBKOEbm!^")]);
        seal(telegram);
    }),
    ("character of the set, sealed", |random, telegram| {
        let index = field_index(random, telegram);
        put(telegram, index, &[random.one_of(SET.as_bytes())]);
        seal(telegram);
    }),
    ("byte outside the set, sealed", |random, telegram| {
        let index = field_index(random, telegram);
        let byte = random.one_of(b"^!/;@`~\x00\x7F\x80\xFF");
        put(telegram, index, &[byte]);
        seal(telegram);
    }),
    ("field longer, sealed", |random, telegram| {
        for _ in 0..=random.below(3) {
            let index = field_index(random, telegram);
            let byte = random.one_of(b"0123ABCD: LPHR%88");
            telegram.insert(index.min(telegram.len()), byte);
        }
        count(telegram);
        seal(telegram);
    }),
    ("field shorter, sealed", |random, telegram| {
        let index = field_index(random, telegram);
        if index < telegram.len() {
            telegram.remove(index);
        }
        count(telegram);
        seal(telegram);
    }),
    ("lower-case checksum", |_, telegram| {
        let place = telegram.len().saturating_sub(3);
        if let Some(characters) = telegram.get_mut(place..) {
            characters.make_ascii_lowercase();
        }
    }),
    ("LF inside", |random, telegram| {
        telegram.insert(random.below(telegram.len() + 1), LF);
    }),
    ("CR inside", |random, telegram| {
        telegram.insert(random.below(telegram.len() + 1), CR);
    }),
    ("LF in place of a byte, sealed", |random, telegram| {
        let index = field_index(random, telegram);
        put(telegram, index, &[LF]);
        seal(telegram);
    }),
    ("over-long", |random, telegram| {
        let index = random.below(telegram.len() + 1);
        let run = random.from_to(LONGEST - telegram.len().min(LONGEST), LONGEST + 4);
        let long = (0..run).map(|_| random.one_of(SET.as_bytes()));
        telegram.splice(index..index, long);
        count(telegram);
        seal(telegram);
    }),
    ("cut short", |random, telegram| {
        telegram.truncate(random.below(telegram.len()));
    }),
    ("head lost", |random, telegram| {
        telegram.drain(..random.below(telegram.len()));
    }),
];

/// A random index in the data field of a telegram, or one behind the telegram.
fn field_index(random: &mut Random, telegram: &[u8]) -> usize {
    5 + random.below(telegram.len().saturating_sub(8))
}

fn replaced(random: &mut Random, telegram: &mut [u8]) {
    let index = random.below(telegram.len());
    put(telegram, index, &[random.byte()]);
}

fn removed(random: &mut Random, telegram: &mut Vec<u8>) {
    if !telegram.is_empty() {
        telegram.remove(random.below(telegram.len()));
    }
}

fn inserted(random: &mut Random, telegram: &mut Vec<u8>) {
    telegram.insert(random.below(telegram.len() + 1), random.byte());
}

fn exchanged(random: &mut Random, telegram: &mut [u8]) {
    if !telegram.is_empty() {
        let (one, other) = (random.below(telegram.len()), random.below(telegram.len()));
        telegram.swap(one, other);
    }
}

/// Writes a count that may be wrong into a telegram.
pub fn wrong_count(random: &mut Random, telegram: &mut [u8]) {
    let digits = match random.below(4) {
        0 => [b' ', random.one_of(b"0123456789")],
        1 => *b"0A",
        _ => [random.one_of(b"0123456789"), random.one_of(b"0123456789")],
    };
    put(telegram, 1, &digits);
}

/// A telegram damaged in one of the ways, at times in two.
pub fn damaged(random: &mut Random, line: u8) -> Vec<u8> {
    let mut telegram = any_form(random, line);
    for _ in 0..=usize::from(random.one_in(5)) {
        if let Some((_, damage)) = DAMAGES.get(random.below(DAMAGES.len())) {
            damage(random, &mut telegram);
        }
    }
    telegram
}
