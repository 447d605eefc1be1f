//! The time line of what happened on a line, in words.

use crate::line::demand::{history, summary};
use crate::line::simulated::{Event, Happened, To};
use crate::second::desk::{Heard, Source};
use crate::second::master::Told;
use crate::second::reading::{read, Reading};
use crate::second::records::Record;
use crate::second::words::{source, visible};

/// A row for each thing that happened, and then the sums and the sentences of demand 3.
pub fn timeline(line: u8, happened: &[Happened]) -> String {
    let rows: String = happened.iter().map(|thing| rows(line, thing)).collect();
    format!("{rows}\n{}", summary(&history(happened)))
}

/// A row: when, who, what and why.
fn row(now: u32, who: &str, what: &str, why: &str) -> String {
    let (seconds, rest) = (now / 1_000, now % 1_000);
    let row = format!("{seconds:>4}.{rest:03}  {who:<2} {what:<44} {why}");
    format!("{}\n", row.trim_end())
}

/// The rows of a thing that happened.
fn rows(line: u8, thing: &Happened) -> String {
    let say = |who: &str, what: &str, why: &str| row(thing.now, who, what, why);
    let noted = |lost: &bool| {
        let row = lost.then(|| say("S", "notes a lost line", ""));
        row.unwrap_or_default()
    };
    match &thing.event {
        Event::Dead => say("", "the line is dead", ""),
        Event::Back => say("", "the line is back", ""),
        Event::Lost(to) => say("", &format!("the {} is lost", name(*to)), ""),
        Event::Hit(to, lost) => {
            let hit = say("", &format!("the {} is hit", name(*to)), "");
            hit + &noted(lost)
        }
        Event::Spoiled(to, frame) => {
            let what = format!("the {} is spoiled: {}", name(*to), visible(frame));
            say("", &what, "")
        }
        Event::Noted => noted(&true),
        Event::Heard(_, (lost, heard, sent)) => {
            let (who, what) = match heard {
                Heard::Silent(..) => ("S", "silent".into()),
                _ => ("S>", readable(line, sent)),
            };
            noted(lost) + &say(who, &what, &why(thing.telegram, heard))
        }
        Event::Told(_, told, sent) => telling(line, thing.telegram, told, sent)
            .map_or(String::new(), |(who, what, why)| say(who, &what, &why)),
        Event::Queued(record, said) => {
            let full = said.map_or("refused: the queue holds 8", |()| "");
            say("P", &format!("queues {}", valued(line, record)), full)
        }
        Event::Set(record, _) => say("P", &format!("sets for r {}", valued(line, record)), ""),
        Event::Key(key) => say("P", &format!("turns the key to {}", char::from(*key)), ""),
    }
}

/// What a thing on its way to an end is.
fn name(to: To) -> &'static str {
    match to {
        To::Desk => "sending",
        To::Master => "answer",
    }
}

/// Why the desk sends what it sends.
fn why(telegram: usize, heard: &Heard) -> String {
    let from = match heard {
        Heard::Silent(..) => return String::new(),
        Heard::Fault => return "checksum wrong".into(),
        Heard::Repeat => return "a repeat: the stored answer again".into(),
        Heard::Handled(from) => from,
    };
    let from = match from {
        Source::Requested => "the record set for r",
        Source::Queue => "the oldest queued record",
        Source::Key(_) => "nothing is queued",
        Source::Panel(_) => "its record goes to the panel",
        Source::NothingSet => "nothing is set for r",
        other => &source(other),
    };
    format!("handles telegram {telegram}: {from}")
}

/// Who tells what of a telling of the master, and why; none where it is not shown.
fn telling(
    line: u8,
    telegram: usize,
    told: &Told,
    sent: &[u8],
) -> Option<(&'static str, String, String)> {
    let sending = |why| Some(("M>", readable(line, sent), why));
    let ended = |how: &str, count: &u8| {
        let what = format!("telegram {telegram} {how}");
        Some(("M", what, format!("sendings {count}")))
    };
    match told {
        Told::Sent(_) => sending(format!("telegram {telegram}, sending 1")),
        Told::Polled(_) => sending(format!("telegram {telegram}, sending 1, a poll")),
        Told::Again(count) => sending(format!("sending {count}")),
        Told::Answered(_, count) => ended("answered", count),
        Told::OtherKind(_, count) => ended("answered, of another kind", count),
        Told::Silence(count) => ended("given up: silence", count),
        Told::Rejected(count) => ended("given up: rejected", count),
        Told::Nothing | Told::Refused(_) | Told::Ignored(_) => None,
    }
}

/// The packets of a telegram, each a letter with its value.
fn packets(reading: &Reading) -> String {
    let packet = |(letter, value): &(char, String)| format!("{letter}{value}");
    let packets: Vec<String> = reading.packets.iter().map(packet).collect();
    packets.join(" ")
}

/// A telegram as type, number and packets.
fn readable(line: u8, frame: &[u8]) -> String {
    match read(line, frame) {
        Ok(reading) => format!(
            "{} {}  {}",
            char::from(reading.type_byte),
            reading.number,
            packets(&reading)
        ),
        Err(_) => visible(frame),
    }
}

/// A record as the packets of its telegram.
fn valued(line: u8, record: &Record) -> String {
    let telegram = record.telegram(line, 0).unwrap_or_default();
    read(line, &telegram).map_or(String::new(), |reading| packets(&reading))
}
