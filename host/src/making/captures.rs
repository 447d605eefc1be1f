//! Makes captures: telegrams of a line, valid and damaged, with noise between.

use crate::making::damage::damaged;
use crate::making::random::Random;
use crate::making::telegrams::any_form;
use crate::second::reading::{CR, LF};

/// Noise: any bytes, bytes with neither LF nor CR, or few kinds of bytes with many LF and CR.
pub fn noise(random: &mut Random, length: usize) -> Vec<u8> {
    let kind = random.below(3);
    let draw = |_| match (kind, random.byte()) {
        (0, byte) => byte,
        (1, byte) => byte | 0x80,
        (_, byte) => [LF, CR, b'0', b'8', b'A', b'N', b'1', 0][usize::from(byte % 8)],
    };
    (0..length).map(draw).collect()
}

/// A capture of the line digit and then this many bytes: telegrams of the line, valid and
/// damaged, at times of another line, with noise between; the last may be cut short.
pub fn capture(random: &mut Random, line: u8, length: usize) -> Vec<u8> {
    let mut bytes = vec![b'0'.wrapping_add(line)];
    while bytes.len() <= length {
        let piece = match random.below(12) {
            0..=4 => any_form(random, line),
            5..=8 => damaged(random, line),
            9 => {
                let other = random.from_to(1, 3) as u8;
                any_form(random, other)
            }
            _ => {
                let run = [3, 20, 70, 200][random.below(4)];
                let run = random.below(run);
                noise(random, run)
            }
        };
        bytes.extend(piece);
    }
    bytes.truncate(length + 1);
    bytes
}

/// The next bytes of a capture for timing: mostly bytes outside telegrams in a quiet one,
/// telegrams in a busy one.
pub fn piece(random: &mut Random, line: u8, busy: bool) -> Vec<u8> {
    if !busy {
        let length = random.from_to(2000, 6000);
        let mut bytes: Vec<u8> = (0..length).map(|_| random.byte() | 0x80).collect();
        bytes.extend(any_form(random, line));
        bytes
    } else if random.one_in(50) {
        damaged(random, line)
    } else {
        any_form(random, line)
    }
}
