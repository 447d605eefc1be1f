//! A telegram around a data field, with its count and its checksum: rules B1 to B7.

use crate::second::reading::{checksum, CR, LF};

/// A telegram of a type, number byte and data field, with right count and checksum.
pub fn framed(type_byte: u8, number: u8, field: &[u8]) -> Vec<u8> {
    let mut telegram = vec![LF, b'0', b'0', type_byte, number];
    telegram.extend(field);
    telegram.extend([b'0', b'0', CR]);
    count(&mut telegram);
    seal(&mut telegram);
    telegram
}

/// Writes bytes into a telegram at an index, where there is room.
pub fn put(telegram: &mut [u8], index: usize, bytes: &[u8]) {
    if let Some(room) = telegram.get_mut(index..index + bytes.len()) {
        room.copy_from_slice(bytes);
    }
}

/// Writes the right count into a telegram.
pub fn count(telegram: &mut [u8]) {
    let digits = format!("{:02}", telegram.len().saturating_sub(2) % 100);
    put(telegram, 1, digits.as_bytes());
}

/// Writes the right checksum into a telegram.
pub fn seal(telegram: &mut [u8]) {
    let place = telegram.len().saturating_sub(3);
    if let Some(summed) = telegram.get(1..place) {
        let characters = checksum(summed);
        put(telegram, place, characters.as_bytes());
    }
}
