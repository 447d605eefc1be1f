//! The packets of a type on a line, and the values of a record block by their packets' letters.

use super::{line_in, outcome, refused};
use crate::second::blocks::{self, put_value, value_in};
use crate::second::face::Answer;
use crate::second::numbers::{BY_MASTER, BY_SLAVE};
use crate::second::reading::{form_of, value_length, Form};
use crate::second::records::by_master;

/// A number as a byte; one that is too wide is none.
fn narrow(number: u32) -> Option<u8> {
    u8::try_from(number).ok()
}

/// The line and the type's form on it: 15 where there is no such line, 12 where neither end sends the type there.
/// Each type has one form, so that the first packet's letter does not matter.
fn formed(line: u32, type_number: u32) -> Result<(u8, u8, &'static Form), Answer> {
    let line = line_in(line).ok_or(refused(15, 0))?;
    let known = narrow(type_number).and_then(|byte| Some((line, byte, form_of(line, byte)?)));
    known.ok_or(refused(12, 0))
}

pub(super) fn packet(line: u32, type_number: u32, index: u32) -> Answer {
    let (line, type_byte, form) = match formed(line, type_number) {
        Ok(formed) => formed,
        Err(answer) => return answer,
    };
    let counted = Answer {
        count: form.letters().count() as u32,
        ..Answer::default()
    };
    let sender = if by_master(line, type_byte) {
        BY_MASTER
    } else {
        BY_SLAVE
    };
    match form.letters().nth(index as usize) {
        Some((letter, patterns)) => Answer {
            outcome: sender,
            detail: letter.into(),
            written: value_length(patterns) as u64,
            ..counted
        },
        None => counted,
    }
}

/// A block to fill is looked at before the type is.
pub(super) fn blank(line: u32, type_number: u32, block: &mut [u8]) -> Answer {
    if line_in(line).is_none() {
        return refused(15, 0);
    }
    if block.len() != blocks::RECORD {
        return refused(14, 0);
    }
    match formed(line, type_number) {
        Ok((_, type_byte, _)) => {
            block.fill(0);
            block.split_at_mut(1).0.fill(type_byte);
            Answer {
                record: 1,
                ..outcome(0)
            }
        }
        Err(answer) => answer,
    }
}

/// The index of the packet with a letter, in the form of a block's type.
fn indexed(line: u32, block: &[u8], letter: u32) -> Result<usize, Answer> {
    // of no type, which a number that is too wide is too
    let type_number = match block {
        [type_byte, ..] if block.len() == blocks::RECORD => (*type_byte).into(),
        _ => u32::MAX,
    };
    let (_, _, form) = formed(line, type_number)?;
    let mut letters = form.letters();
    let index = letters.position(|(own, _)| narrow(letter) == Some(own));
    index.ok_or(refused(10, 0))
}

pub(super) fn value(line: u32, block: &[u8], letter: u32) -> Answer {
    match indexed(line, block, letter) {
        Ok(index) => Answer {
            detail: value_in(block, index),
            ..outcome(0)
        },
        Err(answer) => answer,
    }
}

pub(super) fn put(line: u32, block: &mut [u8], letter: u32, value: u32) -> Answer {
    match indexed(line, block, letter) {
        Ok(index) => {
            put_value(block, index, value);
            outcome(0)
        }
        Err(answer) => answer,
    }
}
