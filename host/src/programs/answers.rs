//! The values that the answers of `scenes` say, without the states behind them: docs/SCENES.md.

use crate::second::desk::{Heard, Hearing, Refusal, Source};
use crate::second::master::{Told, Why};
use crate::second::records::Record;
use crate::second::script::Row;
use crate::second::words::meant;

/// A refusal and its place.
fn refused_in(words: &str) -> Option<(Refusal, usize)> {
    let (refusal, place) = words.strip_prefix("no ")?.split_once(' ')?;
    Some((refusal.parse().ok()?, place.parse().ok()?))
}

fn record_in(text: &str) -> Record {
    Row { text }.record(0)
}

/// What was done, and the bytes that were sent.
fn parted(answer: &str) -> (&str, Vec<u8>) {
    let parts = answer.split_once(" bytes ");
    let parts = parts.and_then(|(did, sent)| Some((did.rsplit_once(", ")?.0, meant(sent))));
    parts.unwrap_or((answer, Vec::new()))
}

/// What a start, a queued or set record or a turned key did.
pub fn done_in(words: &str) -> Option<Result<(), Refusal>> {
    match words {
        "done" => Some(Ok(())),
        other => Some(Err(refused_in(other)?.0)),
    }
}

/// What a tick of the desk did.
pub fn ticked_in(words: &str) -> Option<Result<bool, Refusal>> {
    match words {
        "line noted lost" => Some(Ok(true)),
        other => Some(done_in(other)?.map(|()| false)),
    }
}

/// What a hearing of the desk did.
pub fn hearing_in(words: &str) -> Option<Result<Hearing, Refusal>> {
    if let Some((refusal, _)) = refused_in(words) {
        return Some(Err(refusal));
    }
    let behind = words.strip_prefix("line noted lost, ");
    let (did, sent) = parted(behind.unwrap_or(words));
    Some(Ok((behind.is_some(), heard_in(did)?, sent)))
}

/// What a call of the master did, and what it sent.
pub fn telling_in(words: &str) -> Option<(Told, Vec<u8>)> {
    let (did, sent) = parted(words);
    Some((told_in(did)?, sent))
}

fn heard_in(words: &str) -> Option<Heard> {
    let (first, rest) = words.split_once(", ").unwrap_or((words, ""));
    Some(match first {
        "silent" => {
            let (refusal, place) = refused_in(rest)?;
            Heard::Silent(refusal, place)
        }
        "fault" => Heard::Fault,
        "repeat" => Heard::Repeat,
        "handled" => Heard::Handled(source_in(rest)?),
        _ => return None,
    })
}

fn source_in(words: &str) -> Option<Source> {
    let (first, rest) = words.split_once(' ').unwrap_or((words, ""));
    Some(match first {
        "requested" => Source::Requested,
        "queue" => Source::Queue,
        "key" => Source::Key(*rest.as_bytes().first()?),
        "panel" => Source::Panel(record_in(rest)),
        "contents" => {
            let (refusal, place) = refused_in(rest)?;
            Source::Contents(refusal, place)
        }
        "not" => Source::NotMaster,
        "nothing" => Source::NothingSet,
        _ => return None,
    })
}

fn told_in(words: &str) -> Option<Told> {
    let parts: Vec<&str> = words.split(", ").collect();
    let count = |part: &str| part.strip_prefix("count ")?.parse().ok();
    Some(match parts[..] {
        ["nothing"] => Told::Nothing,
        ["sent", sendings] => Told::Sent(count(sendings)?),
        ["sent again", sendings] => Told::Again(count(sendings)?),
        ["polled", sendings] => Told::Polled(count(sendings)?),
        ["answered", sendings, record] => Told::Answered(record_in(record), count(sendings)?),
        ["another kind", sendings, heard] => {
            let heard = refused_in(heard).map_or_else(|| Ok(record_in(heard)), Err);
            Told::OtherKind(heard, count(sendings)?)
        }
        ["given up", "silence", sendings] => Told::Silence(count(sendings)?),
        ["given up", "rejected", sendings] => Told::Rejected(count(sendings)?),
        ["ignored", "free"] => Told::Ignored(Why::Free),
        ["ignored", "T2 run out"] => Told::Ignored(Why::RunOut),
        ["ignored", "other number"] => Told::Ignored(Why::OtherNumber),
        ["ignored", why] => {
            let (refusal, place) = refused_in(why)?;
            Told::Ignored(Why::Refused(refusal, place))
        }
        [refusal] => Told::Refused(refused_in(refusal)?.0),
        _ => return None,
    })
}
