//! The words of a refusal and of an outcome with its detail, into a lent output.

use super::{refused, send};
use crate::second::face::Answer;
use crate::second::faults::is_on;

const REFUSALS: [&str; 21] = [
    "not refused",
    "under 10 bytes",
    "over 66 bytes",
    "the first byte is not LF",
    "the byte count is not two digits, or not the length less 2",
    "the last byte is not CR",
    "the checksum is wrong, or not of 0-9 A-F",
    "the number is not 0 or 1",
    "this line has no telegram of this type",
    "a data byte is outside the character set",
    "the data field has another length, or a packet letter is wrong",
    "a value is not permitted",
    "this end does not send this record on this line",
    "a value, a number or the key position is out of its range",
    "the output has too little room",
    "there is no such line, or a state is out of its ranges",
    "the master is not free: it has not ended its last telegram",
    "the desk's queue is full: eight records wait",
    "a record of a log has an unknown mark",
    "its length is over 66, or it is a hit with a length",
    "the log ends inside a record",
];

/// Words of an outcome and a detail.
type Row = ((u32, u32), &'static str);

const DESK: &[Row] = &[
    ((1, 0), "done"),
    ((2, 0), "nothing is sent: the frame is refused"),
    ((3, 0), "a checksum fault: N with 1 is sent"),
    ((4, 0), "a repeat: the stored answer is sent again"),
    ((5, 1), "handled: answered with the record set for r"),
    (
        (5, 2),
        "handled: answered with the oldest record of the queue",
    ),
    ((5, 3), "handled: answered with A, since no record waits"),
    (
        (5, 4),
        "handled: answered with A, and the record is for the panel",
    ),
    (
        (5, 5),
        "handled: answered with N, since the contents are refused",
    ),
    (
        (5, 6),
        "handled: answered with N, since the master does not send this telegram",
    ),
    (
        (5, 7),
        "handled: answered with N, since no record is set for r",
    ),
];

const MASTER: &[Row] = &[
    ((1, 0), "nothing to do"),
    ((2, 1), "sent: the record that was offered"),
    ((2, 2), "sent: the same telegram again"),
    ((2, 3), "sent: a poll"),
    ((3, 0), "answered"),
    ((4, 0), "an answer of another kind"),
    (
        (5, 1),
        "given up: no answer came, and the line is noted lost",
    ),
    ((5, 2), "given up: the last sending was rejected"),
    ((6, 1), "ignored: the master waits on no telegram"),
    ((6, 2), "ignored: T2 has run out"),
    ((6, 3), "ignored: the frame is refused"),
    ((6, 4), "ignored: it has the other number"),
];

/// Puts words and a 0 into the front of the output.
fn put(words: Option<&str>, out: &mut [u8]) -> Answer {
    let Some(words) = words else {
        return refused(13, 0);
    };
    let bytes = [words.as_bytes(), b"\0"].concat();
    let needed = bytes.len() - usize::from(is_on("words without their 0"));
    if out.len() < needed {
        return refused(14, 0);
    }
    send(out, bytes.get(..out.len()).unwrap_or(&bytes));
    Answer {
        written: words.len() as u64,
        ..Answer::default()
    }
}

pub(super) fn of_refusal(refusal: u32, out: &mut [u8]) -> Answer {
    put(REFUSALS.get(refusal as usize).copied(), out)
}

fn row(rows: &[Row], outcome: u32, detail: u32) -> Option<&'static str> {
    let mut rows = rows.iter();
    let (_, words) = rows.find(|(numbers, _)| *numbers == (outcome, detail))?;
    Some(words)
}

pub(super) fn of_desk(outcome: u32, detail: u32, out: &mut [u8]) -> Answer {
    put(row(DESK, outcome, detail), out)
}

pub(super) fn of_master(outcome: u32, detail: u32, out: &mut [u8]) -> Answer {
    put(row(MASTER, outcome, detail), out)
}
