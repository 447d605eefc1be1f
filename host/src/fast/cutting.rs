//! Cuts telegrams out of bytes, over a slice and byte by byte (C2 to C7).

use super::{CR, LF, LONGEST};

/// A byte eight times.
const fn eight(byte: u8) -> u64 {
    u64::from_ne_bytes([byte; 8])
}

/// The index of the first CR.
fn find_cr(bytes: &[u8]) -> Option<usize> {
    let (words, rest) = bytes.as_chunks::<8>();
    for (index, word) in words.iter().enumerate() {
        // the lowest high bit that is set stands in the first byte that is CR
        let other = u64::from_le_bytes(*word) ^ eight(CR);
        let found = other.wrapping_sub(eight(1)) & !other & eight(0x80);
        if found != 0 {
            return Some(index * 8 + found.trailing_zeros() as usize / 8);
        }
    }
    let index = rest.iter().position(|byte| *byte == CR)?;
    Some(words.len() * 8 + index)
}

/// The next telegram at or behind a place, with its offset: it ends with the first CR that has an LF among the 65
/// bytes before it, with no CR between, and begins with the last such LF.
pub fn next_telegram(bytes: &[u8], from: usize) -> Option<(usize, &[u8])> {
    let mut from = from;
    loop {
        let end = from + find_cr(bytes.get(from..)?)?;
        let first = from.max((end + 1).saturating_sub(LONGEST));
        if let Some(index) = bytes[first..end].iter().rposition(|byte| *byte == LF) {
            let start = first + index;
            return Some((start, &bytes[start..=end]));
        }
        from = end + 1;
    }
}

/// Where a telegram begins that may go on behind these bytes; their length where there is none. No telegram begins
/// before `from`.
pub fn unfinished(bytes: &[u8], from: usize) -> usize {
    let first = from.max((bytes.len() + 1).saturating_sub(LONGEST));
    for (index, byte) in bytes.iter().enumerate().skip(first).rev() {
        match *byte {
            LF => return index,
            CR => break,
            _ => {}
        }
    }
    bytes.len()
}

/// Gathers a telegram byte by byte.
pub struct Gatherer {
    bytes: [u8; LONGEST],
    /// How many bytes of a telegram there are; 0 outside one.
    length: usize,
}

impl Gatherer {
    /// A gatherer outside a telegram.
    pub fn start() -> Gatherer {
        let bytes = [0; LONGEST];
        Gatherer { bytes, length: 0 }
    }

    /// Takes a byte, and hands out the telegram that it ends.
    pub fn byte(&mut self, byte: u8) -> Option<&[u8]> {
        if byte == LF {
            self.bytes[0] = LF;
            self.length = 1;
            return None;
        }
        if self.length == 0 {
            return None;
        }
        // at most 65 bytes are kept
        self.bytes[self.length] = byte;
        self.length += 1;
        if byte == CR {
            let length = std::mem::take(&mut self.length);
            return Some(&self.bytes[..length]);
        }
        if self.length == LONGEST {
            self.length = 0;
        }
        None
    }

    /// Takes a hit.
    pub fn hit(&mut self) {
        self.length = 0;
    }
}
