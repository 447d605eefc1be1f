//! The replay of a whole log as text, over the second desk: docs/REPLAY.md, from request 1 alone.

use crate::second::desk::{Desk, Hearing, Refusal, ROOM};
use crate::second::logs::{entries, Entry, Mark};
use crate::second::reading::read;
use crate::second::records::Record;
use crate::second::words::{hearing_of, ticked};

/// What the program `replay` prints for an input.
pub fn replay(input: &[u8]) -> String {
    replayed(input, |line| {
        let mut desk = Desk::start(line).0;
        move |entry: &Entry| acted(&mut desk, entry)
    })
}

/// The rows of an input. `fresh` starts a desk, and gives what each record makes it do in words.
pub fn replayed<D>(input: &[u8], fresh: impl FnOnce(u8) -> D) -> String
where
    D: FnMut(&Entry) -> Option<String>,
{
    let (line, log) = match input.split_first() {
        Some((digit @ b'1'..=b'3', log)) => (digit - b'0', log),
        _ => return String::from("no 15 0\n"),
    };
    let mut desk = fresh(line);
    let (found, refused) = entries(log);
    let mut rows = String::new();
    for (index, (offset, entry)) in found.iter().enumerate() {
        if let Some(did) = desk(entry) {
            let (ordinal, time) = (index + 1, entry.time);
            rows.push_str(&format!("{ordinal} {offset} {time} {did}\n"));
        }
    }
    if let Some((refusal, offset)) = refused {
        rows.push_str(&format!("no {refusal} {offset}\n"));
    }
    rows
}

/// What a record makes the second desk do; nothing where it is passed over.
fn acted(desk: &mut Desk, entry: &Entry) -> Option<String> {
    match entry.mark {
        Mark::Slave => None,
        Mark::Hit => Some(ticked(desk.tick(entry.time))),
        Mark::Master => {
            let answer = desk.hear(entry.time, ROOM, entry.bytes);
            Some(told(desk.line, entry.bytes, answer))
        }
    }
}

/// What a row says of a hearing: a handled telegram is named, where it was read.
pub fn told(line: u8, frame: &[u8], answer: Result<Hearing, Refusal>) -> String {
    let read = read(line, frame).map(|reading| Record::read(line, &reading));
    hearing_of(answer, read.ok().as_ref())
}
