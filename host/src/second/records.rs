//! Records as a type with a number for each packet, and their telegrams: rules L1 to L19
//! and V18.

use crate::second::framing::framed;
use crate::second::reading::{form_of, permits, value_length, Reading};

/// What the master sends on lines 1 to 3, and the slave's data type there.
const MASTER: [&[u8]; 3] = [b"cFGrt", b"1Frt", b"Oonrt"];
const DATA: [u8; 3] = [b'B', b'5', b'K'];

/// True where the master sends this type on the line.
pub fn by_master(line: u8, type_byte: u8) -> bool {
    let row = usize::from(line).wrapping_sub(1);
    MASTER
        .get(row)
        .is_some_and(|types| types.contains(&type_byte))
}

/// The slave's data type on the line.
pub fn data_type(line: u8) -> Option<u8> {
    DATA.get(usize::from(line).wrapping_sub(1)).copied()
}

/// A type and its values: the number that digits say, or the codes of characters; of two
/// characters the first has the higher byte.
#[derive(Debug, Clone, PartialEq, Eq)]
pub struct Record {
    pub type_byte: u8,
    pub values: Vec<u32>,
}

/// True where a value of these patterns is written in digits.
fn is_decimal(patterns: &str) -> bool {
    patterns.contains('d') || patterns == "88|00"
}

/// The fixed character in front of a value's own, where there is one.
fn lead(patterns: &str) -> &str {
    match patterns.as_bytes() {
        [b'C' | b':', _, ..] => patterns.get(..1).unwrap_or(""),
        _ => "",
    }
}

/// The characters of a value, unless it has more than the patterns have.
fn text(patterns: &str, value: u32) -> Option<Vec<u8>> {
    let lead = lead(patterns);
    let width = value_length(patterns) - lead.len();
    let own = if is_decimal(patterns) {
        format!("{value:0width$}").into_bytes()
    } else {
        let codes = value.to_be_bytes();
        let spare = codes.len().checked_sub(width)?;
        if codes.iter().take(spare).any(|code| *code != 0) {
            return None;
        }
        codes.get(spare..)?.to_vec()
    };
    (own.len() == width).then(|| [lead.as_bytes(), &own].concat())
}

/// The number of a value's characters.
fn number(patterns: &str, text: &str) -> u32 {
    let own = text.get(lead(patterns).len()..).unwrap_or("");
    if is_decimal(patterns) {
        return own.parse().unwrap_or(0);
    }
    own.bytes().fold(0, |sum, code| sum * 256 + u32::from(code))
}

impl Record {
    /// A record with one value that is a character.
    pub fn with(type_byte: u8, character: u8) -> Record {
        Record {
            type_byte,
            values: vec![u32::from(character)],
        }
    }

    /// The record that an accepted telegram carries.
    pub fn read(line: u8, reading: &Reading) -> Record {
        let letters = form_of(line, reading.type_byte)
            .into_iter()
            .flat_map(|form| form.letters());
        Record {
            type_byte: reading.type_byte,
            values: letters
                .zip(&reading.packets)
                .map(|((_, patterns), (_, text))| number(patterns, text))
                .collect(),
        }
    }

    /// Its telegram with a number, where its type is on the line and its values are permitted.
    pub fn telegram(&self, line: u8, number: u8) -> Option<Vec<u8>> {
        let form = form_of(line, self.type_byte)?;
        let mut field = Vec::new();
        for (index, (letter, patterns)) in form.letters().enumerate() {
            let value = self.values.get(index).copied().unwrap_or(0);
            let text = text(patterns, value).filter(|text| permits(patterns, text))?;
            field.push(letter);
            field.extend(text);
        }
        Some(framed(self.type_byte, b'0' + number, &field))
    }
}
