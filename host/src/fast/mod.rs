//! The fast plain version: the listing of a capture, and what it needs, as a Rust programmer writes it for
//! speed. It is what the library's times are set against (docs/MEASUREMENTS.md).
//!
//! Written from docs/RULES.md and from nothing else: it uses no part of the second version and none of the
//! library. It has no `unsafe` code, uses the standard library only, and allocates nothing but the two
//! buffers of the listing, once. It has no ends: no desk and no master.

pub mod cutting;
pub mod forms;
pub mod listing;
pub mod reading;
pub mod writing;

pub const LF: u8 = 0x0A;
pub const CR: u8 = 0x0D;
/// The fewest and the most bytes of a telegram (B2).
pub const SHORTEST: usize = 10;
pub const LONGEST: usize = 66;

/// A refusal with its place.
#[derive(Debug, Clone, Copy, PartialEq, Eq)]
pub struct Refusal {
    pub number: u8,
    pub place: u8,
}

/// The answer that refuses.
fn refused<T>(number: u8, place: usize) -> Result<T, Refusal> {
    // a place is an index in a telegram
    let place = place as u8;
    Err(Refusal { number, place })
}

/// A type and the value of each of its packets in order (V18); the others are 0.
#[derive(Debug, Clone, Copy, PartialEq, Eq)]
pub struct Record {
    pub type_byte: u8,
    pub values: [u32; 10],
}

/// The two checksum characters of a sum of bytes (B4, B5).
fn checksum(sum: u8) -> [u8; 2] {
    const DIGITS: &[u8; 16] = b"0123456789ABCDEF";
    let complement = usize::from(sum.wrapping_neg());
    [DIGITS[complement / 16], DIGITS[complement % 16]]
}

/// The two characters of the byte count of a telegram of this length (B3).
fn count(length: usize) -> [u8; 2] {
    let count = (length - 2) as u8;
    [b'0' + count / 10, b'0' + count % 10]
}

/// The sum of bytes, modulo 256.
fn sum(bytes: &[u8]) -> u8 {
    bytes.iter().fold(0, |sum, byte| sum.wrapping_add(*byte))
}
