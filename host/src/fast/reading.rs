//! Reads a telegram: checks 1 to 11 (R1 to R11) and 15. A good telegram passes in one walk over its data field; only
//! a refused one is looked at again, to say which check it was and where.

use super::forms::{form_of, Form, KINDS, SET};
use super::{checksum, count, refused, sum, Record, Refusal, CR, LF, LONGEST, SHORTEST};

/// Makes the checks, and answers the type and the number.
pub fn check(line: u8, frame: &[u8]) -> Result<(u8, u8), Refusal> {
    if !matches!(line, 1..=3) {
        return refused(15, 0);
    }
    let length = frame.len();
    if length < SHORTEST {
        return refused(1, 0);
    }
    if length > LONGEST {
        return refused(2, 0);
    }
    if frame[0] != LF {
        return refused(3, 0);
    }
    if frame[1..3] != count(length) {
        return refused(4, 1);
    }
    if frame[length - 1] != CR {
        return refused(5, length - 1);
    }
    if frame[length - 3..length - 1] != checksum(sum(&frame[1..length - 3])) {
        return refused(6, length - 3);
    }
    let (type_byte, number) = (frame[3], frame[4].wrapping_sub(b'0'));
    if number > 1 {
        return refused(7, 4);
    }
    let Some(form) = form_of(line, type_byte) else {
        return refused(8, 3);
    };
    let field = &frame[5..length - 3];
    if field.len() == form.length && form.permits(field) {
        Ok((type_byte, number))
    } else {
        Err(fault(form, field))
    }
}

/// The fault of a data field that the form does not permit.
#[cold]
fn fault(form: &Form, field: &[u8]) -> Refusal {
    let refusal = |number, index: usize| Refusal {
        number,
        place: 5 + index as u8,
    };
    let strange = |byte: &u8| KINDS[usize::from(*byte)] & SET == 0;
    if let Some(index) = field.iter().position(strange) {
        return refusal(9, index);
    }
    if field.len() != form.length {
        return refusal(10, 0);
    }
    let mut letter = 0;
    for (wanted, value) in form.packets {
        if field[letter] != *wanted {
            return refusal(10, letter);
        }
        letter += 1 + value.len();
    }
    letter = 0;
    for (_, value) in form.packets {
        let found = &field[letter + 1..][..value.len()];
        let fits = |(byte, wanted): (&u8, &u64)| KINDS[usize::from(*byte)] & wanted != 0;
        if !found.iter().zip(*value).all(fits) {
            return refusal(11, letter);
        }
        letter += 1 + value.len();
    }
    // each byte may stand at its place, so it is the two digits of R, the last packet
    refusal(11, field.len() - 3)
}

/// Reads a telegram into a record with its number.
pub fn read(line: u8, frame: &[u8]) -> Result<(Record, u8), Refusal> {
    let (type_byte, number) = check(line, frame)?;
    let values = values(&frame[5..frame.len() - 3]);
    Ok((Record { type_byte, values }, number))
}

/// The number that the digits at a place say.
fn decimal<const DIGITS: usize>(field: &[u8], at: usize) -> u32 {
    let digits = field[at..at + DIGITS].iter();
    digits.fold(0, |number, digit| number * 10 + u32::from(digit - b'0'))
}

/// The values of a field that has passed the checks; its length says which packets it has.
fn values(field: &[u8]) -> [u32; 10] {
    let code = |at: usize| u32::from(field[at]);
    let mut values = [0; 10];
    match field.len() {
        2 => values[0] = code(1),
        3 => values[0] = decimal::<2>(field, 1),
        4 => values[0] = decimal::<3>(field, 1),
        5 => values[0] = decimal::<4>(field, 1),
        7 => values[0] = decimal::<6>(field, 1),
        15 => {
            values[0] = decimal::<3>(field, 1);
            values[1] = decimal::<3>(field, 5);
            values[2] = decimal::<3>(field, 9);
            values[3] = decimal::<2>(field, 13);
        }
        length => {
            values[0] = decimal::<2>(field, 2);
            values[1] = decimal::<2>(field, 5);
            values[2] = decimal::<2>(field, 8);
            values[3] = code(12);
            values[4] = code(15) << 8 | code(16);
            values[5] = decimal::<4>(field, 18);
            match length {
                29 => values[6] = decimal::<6>(field, 23),
                30 => {
                    values[6] = code(23);
                    values[7] = code(25);
                    values[8] = code(27);
                    values[9] = code(29);
                }
                _ => {}
            }
        }
    }
    values
}
