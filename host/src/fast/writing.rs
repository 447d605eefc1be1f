//! Writes the telegram of a record (W4 to W6). The data field is made beside the output and checked there, so that a
//! refused call leaves the output as it was.

use super::forms::{form_of, FIELD};
use super::{checksum, count, refused, sum, Record, Refusal, CR, LF};

/// Writes a telegram to the front of the output, and answers its length.
pub fn write(line: u8, record: &Record, number: u8, out: &mut [u8]) -> Result<usize, Refusal> {
    if !matches!(line, 1..=3) {
        return refused(15, 0);
    }
    let Some(form) = form_of(line, record.type_byte) else {
        return refused(12, 0);
    };
    let mut whole = form.blank;
    let field = &mut whole[..form.length];
    if number > 1 || !put_values(&record.values, field) || !form.permits(field) {
        return refused(13, 0);
    }
    let length = form.length + 8;
    let Some(telegram) = out.get_mut(..length) else {
        return refused(14, 0);
    };
    let [tens, ones] = count(length);
    telegram[..5].copy_from_slice(&[LF, tens, ones, record.type_byte, b'0' + number]);
    telegram[5..length - 3].copy_from_slice(field);
    let [high, low] = checksum(sum(&telegram[1..length - 3]));
    telegram[length - 3..].copy_from_slice(&[high, low, CR]);
    Ok(length)
}

/// Puts a number in digits at a place; false where it needs more.
fn decimal<const DIGITS: usize>(field: &mut [u8], at: usize, mut number: u32) -> bool {
    for digit in field[at..at + DIGITS].iter_mut().rev() {
        *digit = b'0' + (number % 10) as u8;
        number /= 10;
    }
    number == 0
}

/// Puts the code of a character at a place; false where it is none.
fn code(field: &mut [u8], at: usize, code: u32) -> bool {
    field[at] = code as u8;
    code < 256
}

/// Puts the values into a field that has its letters; its length says which packets it has. False where a value has
/// more characters than its packet.
fn put_values(values: &[u32; 10], field: &mut [u8]) -> bool {
    match field.len() {
        2 => code(field, 1, values[0]),
        3 => decimal::<2>(field, 1, values[0]),
        4 => decimal::<3>(field, 1, values[0]),
        5 => decimal::<4>(field, 1, values[0]),
        7 => decimal::<6>(field, 1, values[0]),
        15 => {
            decimal::<3>(field, 1, values[0])
                & decimal::<3>(field, 5, values[1])
                & decimal::<3>(field, 9, values[2])
                & decimal::<2>(field, 13, values[3])
        }
        length => {
            (field[1], field[11], field[14]) = (b'C', b':', b':');
            let radio = decimal::<2>(field, 2, values[0])
                & decimal::<2>(field, 5, values[1])
                & decimal::<2>(field, 8, values[2])
                & code(field, 12, values[3])
                & code(field, 15, values[4] >> 8)
                & code(field, 16, values[4] & 255)
                & decimal::<4>(field, 18, values[5]);
            match length {
                29 => radio & decimal::<6>(field, 23, values[6]),
                FIELD => {
                    radio
                        & code(field, 23, values[6])
                        & code(field, 25, values[7])
                        & code(field, 27, values[8])
                        & code(field, 29, values[9])
                }
                _ => radio,
            }
        }
    }
}
