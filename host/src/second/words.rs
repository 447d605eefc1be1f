//! The words of rows and answers, as the program `scenes` has them: docs/SCENES.md.

use crate::second::desk::{Desk, Heard, Hearing, Refusal, Source};
use crate::second::master::{Master, Told, Why};
use crate::second::reading::{CR, LF};
use crate::second::records::Record;

/// A byte in a row: < for LF, > for CR, =HH where it would be read otherwise.
pub fn in_row(bytes: &[u8]) -> String {
    let mut text = String::new();
    for byte in bytes {
        match *byte {
            LF => text.push('<'),
            CR => text.push('>'),
            b'0'..=b'9' | b'A'..=b'Z' | b'a'..=b'z' | b'%' | b':' | b'+' | b'-' => {
                text.push(char::from(*byte))
            }
            other => text.push_str(&format!("={other:02X}")),
        }
    }
    text
}

/// The bytes that a text of a row means.
pub fn meant(text: &str) -> Vec<u8> {
    let mut bytes = Vec::new();
    let mut rest = text.bytes();
    while let Some(byte) = rest.next() {
        let mut digit = || {
            rest.next()
                .filter(|digit| !digit.is_ascii_lowercase())
                .and_then(|digit| char::from(digit).to_digit(16))
                .unwrap_or(0)
        };
        bytes.push(match byte {
            b'<' => LF,
            b'>' => CR,
            b'=' => (digit() * 16 + digit()) as u8,
            other => other,
        });
    }
    bytes
}

/// A record as a row writes it.
pub fn shown(record: &Record) -> String {
    let mut text = String::from(char::from(record.type_byte));
    for value in &record.values {
        text.push_str(&format!(" {value}"));
    }
    text
}

/// A telegram as it is shown.
pub fn visible(bytes: &[u8]) -> String {
    let character = |byte: &u8| match *byte {
        LF => '<',
        CR => '>',
        other => char::from(other),
    };
    bytes.iter().map(character).collect()
}

/// What was sent, as an output shows it.
pub fn output(bytes: &[u8]) -> String {
    if bytes.is_empty() {
        return String::new();
    }
    format!(", {} bytes {}", bytes.len(), visible(bytes))
}

pub fn line(good: bool) -> &'static str {
    if good {
        "line good"
    } else {
        "line lost"
    }
}

pub fn source(source: &Source) -> String {
    match source {
        Source::Requested => "requested".into(),
        Source::Queue => "queue".into(),
        Source::Key(key) => format!("key {}", char::from(*key)),
        Source::Panel(record) => format!("panel {}", shown(record)),
        Source::Contents(refusal, place) => format!("contents no {refusal} {place}"),
        Source::NotMaster => "not the master's".into(),
        Source::NothingSet => "nothing set".into(),
    }
}

/// What came of a frame, with the record that it was where that is to be named and the source does not.
fn heard(heard: &Heard, named: Option<&Record>) -> String {
    match (heard, named) {
        (Heard::Silent(refusal, place), _) => format!("silent, no {refusal} {place}"),
        (Heard::Fault, _) => "fault".into(),
        (Heard::Repeat, _) => "repeat".into(),
        (Heard::Handled(from @ Source::Panel(_)), _) | (Heard::Handled(from), None) => {
            format!("handled, {}", source(from))
        }
        (Heard::Handled(from), Some(record)) => {
            format!("handled, {}, {}", shown(record), source(from))
        }
    }
}

/// What a desk's hearing answers, with the record that it handled where one is given.
pub fn hearing_of(answer: Result<Hearing, Refusal>, named: Option<&Record>) -> String {
    match answer {
        Ok((lost, came, bytes)) => {
            let noted = if lost { "line noted lost, " } else { "" };
            format!("{noted}{}{}", heard(&came, named), output(&bytes))
        }
        Err(refusal) => done(Err(refusal)),
    }
}

/// What a desk's hearing answers, as `scenes` says it.
pub fn hearing(answer: Result<Hearing, Refusal>) -> String {
    hearing_of(answer, None)
}

/// What a desk's tick answers.
pub fn ticked(answer: Result<bool, Refusal>) -> String {
    match answer {
        Ok(true) => "line noted lost".into(),
        other => done(other.map(|_| ())),
    }
}

/// What is due of an end.
pub fn due(answer: Result<Option<u32>, Refusal>) -> String {
    match answer {
        Ok(Some(after)) => format!("due after {after}"),
        Ok(None) => "due never".into(),
        Err(refusal) => done(Err(refusal)),
    }
}

pub fn told(told: &Told) -> String {
    let contents = |heard: &Result<Record, (u8, usize)>| match heard {
        Ok(record) => shown(record),
        Err((refusal, place)) => format!("no {refusal} {place}"),
    };
    match told {
        Told::Refused(refusal) => format!("no {refusal} 0"),
        Told::Nothing => "nothing".into(),
        Told::Sent(count) => format!("sent, count {count}"),
        Told::Again(count) => format!("sent again, count {count}"),
        Told::Polled(count) => format!("polled, count {count}"),
        Told::Answered(record, count) => format!("answered, count {count}, {}", shown(record)),
        Told::OtherKind(heard, count) => {
            format!("another kind, count {count}, {}", contents(heard))
        }
        Told::Silence(count) => format!("given up, silence, count {count}"),
        Told::Rejected(count) => format!("given up, rejected, count {count}"),
        Told::Ignored(Why::Free) => "ignored, free".into(),
        Told::Ignored(Why::RunOut) => "ignored, T2 run out".into(),
        Told::Ignored(Why::Refused(refusal, place)) => format!("ignored, no {refusal} {place}"),
        Told::Ignored(Why::OtherNumber) => "ignored, other number".into(),
    }
}

/// The rest of a desk's state.
pub fn desk_whole(desk: &Desk) -> String {
    let mut text = format!(
        "line {}, T1 {}, key {}",
        desk.line,
        desk.t1,
        char::from(desk.key)
    );
    if desk.kept != 0 {
        let stored = desk.stored.get(..desk.kept).unwrap_or(&desk.stored);
        text.push_str(&format!(", stored {}", visible(stored)));
    }
    if let Some(record) = &desk.requested {
        text.push_str(&format!(", set {}", shown(record)));
    }
    for record in desk.queue.iter().take(desk.queued) {
        text.push_str(&format!(", waits {}", shown(record)));
    }
    text
}

/// The rest of a master's state.
pub fn master_whole(master: &Master) -> String {
    let operation = if master.operation { ", operation" } else { "" };
    let text = format!("line {}, T0 {}{operation}", master.line, master.t0);
    if master.count == 0 {
        return text;
    }
    format!("{text}, T2 {}, sends {}", master.t2, shown(&master.record))
}

pub fn done(result: Result<(), Refusal>) -> String {
    match result {
        Ok(()) => "done".into(),
        Err(refusal) => format!("no {refusal} 0"),
    }
}
