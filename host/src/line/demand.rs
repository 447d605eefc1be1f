//! The sentences of demand 3, judged on what happened in a run.

use crate::line::simulated::{Event, Happened, To};
use crate::second::desk::Heard;
use crate::second::master::Told;
use crate::second::words::visible;

/// What the demand speaks of, oldest first. A telegram is its ordinal among the first sendings; an
/// answer is its bytes, as they are shown.
#[derive(Debug, Clone, PartialEq, Eq)]
pub enum Item {
    Sent(usize),
    Again(usize),
    Noted,
    Handled(usize, String),
    Over(usize),
    Answered(usize, String, usize),
    GivenUp(usize, usize),
}

/// What the demand speaks of, of what happened.
pub fn history(happened: &[Happened]) -> Vec<Item> {
    happened.iter().flat_map(items).collect()
}

fn items(thing: &Happened) -> Vec<Item> {
    let telegram = thing.telegram;
    let noted = |lost: bool| lost.then_some(Item::Noted);
    let over = [Item::Over(telegram)];
    match &thing.event {
        Event::Lost(To::Desk) => over.into(),
        Event::Hit(To::Desk, lost) => noted(*lost).into_iter().chain(over).collect(),
        Event::Noted => vec![Item::Noted],
        Event::Heard(_, (lost, heard, sent)) => {
            let is_handled = matches!(heard, Heard::Handled(_));
            let handled = is_handled.then(|| Item::Handled(telegram, visible(sent)));
            let items = noted(*lost).into_iter().chain(handled);
            items.chain(over).collect()
        }
        Event::Told(heard, told, _) => match told {
            Told::Sent(_) | Told::Polled(_) => vec![Item::Sent(telegram)],
            Told::Again(_) => vec![Item::Again(telegram)],
            Told::Answered(_, count) | Told::OtherKind(_, count) => {
                vec![Item::Answered(telegram, visible(heard), (*count).into())]
            }
            Told::Silence(count) | Told::Rejected(count) => {
                vec![Item::GivenUp(telegram, (*count).into())]
            }
            Told::Nothing | Told::Refused(_) | Told::Ignored(_) => Vec::new(),
        },
        _ => Vec::new(),
    }
}

/// A sentence of the demand, and whether it holds.
pub type Judged = (&'static str, bool);

/// The telegrams that were handled, each with the answer made for it.
fn handled(history: &[Item]) -> Vec<(usize, &str)> {
    let made = |item| match item {
        &Item::Handled(telegram, ref answer) => Some((telegram, answer.as_str())),
        _ => None,
    };
    history.iter().filter_map(made).collect()
}

/// The telegrams that were answered, each with the answer it got.
fn answered(history: &[Item]) -> Vec<(usize, &str)> {
    let got = |item| match item {
        &Item::Answered(telegram, ref answer, _) => Some((telegram, answer.as_str())),
        _ => None,
    };
    history.iter().filter_map(got).collect()
}

/// The desk notes no lost line from handling a telegram until its last sending was over.
pub fn supposed(history: &[Item]) -> bool {
    history.iter().enumerate().all(|(place, item)| {
        let (before, behind) = history.split_at(place);
        *item != Item::Noted
            || handled(before)
                .iter()
                .all(|(telegram, _)| !behind.contains(&Item::Over(*telegram)))
    })
}

fn none_twice(history: &[Item]) -> bool {
    let telegrams = handled(history);
    let mut pairs = telegrams.iter().zip(telegrams.iter().skip(1));
    pairs.all(|(one, next)| one.0 < next.0)
}

fn none_unsent(history: &[Item]) -> bool {
    history.iter().enumerate().all(|(place, item)| match item {
        Item::Handled(telegram, _) => history
            .iter()
            .take(place)
            .any(|before| *before == Item::Sent(*telegram)),
        _ => true,
    })
}

/// Each answered telegram was handled with that answer, unless it is the first since one was
/// given up.
fn was_handled(history: &[Item]) -> bool {
    let mut calm = true;
    for (place, item) in history.iter().enumerate() {
        match item {
            Item::GivenUp(..) => calm = false,
            Item::Answered(telegram, answer, _) => {
                let (before, _) = history.split_at(place);
                if calm && !handled(before).contains(&(*telegram, answer.as_str())) {
                    return false;
                }
                calm = true;
            }
            _ => {}
        }
    }
    true
}

/// Where none was given up, answered and handled telegrams agree, except perhaps the last handled.
fn all_answered(history: &[Item]) -> bool {
    let (made, got) = (handled(history), answered(history));
    let given_up = history.iter().any(|item| matches!(item, Item::GivenUp(..)));
    given_up || got == made || made.split_last().is_some_and(|(_, rest)| got == rest)
}

/// The count of each report is the number of sendings of its telegram.
fn counts(history: &[Item]) -> bool {
    history.iter().enumerate().all(|(place, item)| match item {
        Item::Answered(telegram, _, count) | Item::GivenUp(telegram, count) => {
            let sendings = history.iter().take(place).filter(|before| {
                **before == Item::Sent(*telegram) || **before == Item::Again(*telegram)
            });
            sendings.count() == *count
        }
        _ => true,
    })
}

/// The demand's sentences on a history.
pub fn judge(history: &[Item]) -> Vec<Judged> {
    vec![
        (
            "handled in the order first sent, none twice",
            none_twice(history),
        ),
        ("none handled that was not sent", none_unsent(history)),
        (
            "answered ones were handled, but for the first since a giving up",
            was_handled(history),
        ),
        (
            "if none was given up, answered and handled agree but perhaps for the last",
            all_answered(history),
        ),
        ("each reported count is the sendings made", counts(history)),
    ]
}

/// The sums of a history, and the demand's sentences on it, in lines.
pub fn summary(history: &[Item]) -> String {
    let count = |wanted: fn(&Item) -> bool| history.iter().filter(|item| wanted(item)).count();
    let mut text = format!(
        "{} telegrams sent, {} sent again; {} handled, {} answered, {} given up; {} lost lines noted\n",
        count(|item| matches!(item, Item::Sent(_))),
        count(|item| matches!(item, Item::Again(_))),
        count(|item| matches!(item, Item::Handled(..))),
        count(|item| matches!(item, Item::Answered(..))),
        count(|item| matches!(item, Item::GivenUp(..))),
        count(|item| matches!(item, Item::Noted)),
    );
    let supposition =
        "supposed: no lost line noted from handling a telegram until its last sending is over";
    let judged = judge(history);
    for (sentence, holds) in [(supposition, supposed(history))].iter().chain(&judged) {
        let word = if *holds { "yes" } else { "NO" };
        text.push_str(&format!("{word:>4}  {sentence}\n"));
    }
    text
}
