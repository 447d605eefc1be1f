//! The whole listing of an input as text: rules P1 to P4.

use crate::second::cutting::telegrams;
use crate::second::reading::read;

/// What the listing program prints for an input.
pub fn listing(input: &[u8]) -> String {
    let (line, bytes) = match input.split_first() {
        Some((digit @ b'1'..=b'3', bytes)) => (digit - b'0', bytes),
        _ => return String::from("no 15 0\n"),
    };
    let mut lines = String::new();
    for (index, (offset, telegram)) in telegrams(bytes).into_iter().enumerate() {
        let answer = match read(line, telegram) {
            Ok(reading) => format!("ok {} {}", char::from(reading.type_byte), reading.number),
            Err((refusal, place)) => format!("no {refusal} {place}"),
        };
        lines.push_str(&format!("{} {offset} {answer}\n", index + 1));
    }
    lines
}
