//! The desk's calls on a block: what each answers, and the bytes it leaves.

use super::{contents, due_of, fill, line_in, meant, outcome, refused, room, send};
use crate::second::blocks::{self, blank_places, desk_block, desk_in, places};
use crate::second::desk::{Desk, Heard, Source};
use crate::second::face::Answer;
use crate::second::faults::is_on;
use crate::second::numbers::*;

/// Makes a call on the desk of a block, and puts it back where the call is not refused.
pub(super) fn on_desk(
    state: &mut [u8],
    act: impl FnOnce(&mut Desk) -> Result<Answer, u8>,
) -> Answer {
    let Some(mut desk) = desk_in(state) else {
        return refused(15, 0);
    };
    let before = desk.queue.clone();
    match act(&mut desk) {
        Ok(answer) => {
            let left = (answer.outcome, answer.detail) == (DESK_HANDLED, FROM_QUEUE);
            desk.queue = places(&before, left, &desk);
            state.copy_from_slice(&desk_block(&desk));
            answer
        }
        Err(refusal) => refused(refusal, 0),
    }
}

pub(super) fn start(state: &mut [u8], line: u32) -> Answer {
    let started = line_in(line).filter(|_| state.len() == blocks::DESK);
    let Some(line) = started else {
        return refused(15, 0);
    };
    let (mut desk, _) = Desk::start(line);
    desk.queue = blank_places();
    state.copy_from_slice(&desk_block(&desk));
    outcome(DESK_DONE)
}

/// A call of the panel that answers only that it is done.
fn panel(state: &mut [u8], act: impl FnOnce(&mut Desk) -> Result<(), u8>) -> Answer {
    on_desk(state, |desk| act(desk).map(|()| outcome(DESK_DONE)))
}

/// Nothing is put into the block.
pub(super) fn queue(state: &mut [u8], block: &[u8]) -> Answer {
    panel(state, |desk| desk.queue(meant(block)))
}

pub(super) fn set(state: &mut [u8], block: &[u8]) -> Answer {
    panel(state, |desk| desk.set(meant(block)))
}

/// A key above 255 is no position, and neither is 0.
pub(super) fn turn_key(state: &mut [u8], key: u32) -> Answer {
    panel(state, |desk| desk.turn_key(u8::try_from(key).unwrap_or(0)))
}

pub(super) fn clear_queue(state: &mut [u8]) -> Answer {
    panel(state, |desk| {
        if is_on("queue cleared with the record set") {
            desk.clear_set()?;
        }
        desk.clear_queue()
    })
}

pub(super) fn clear_set(state: &mut [u8]) -> Answer {
    panel(state, Desk::clear_set)
}

pub(super) fn tick(state: &mut [u8], time: u32) -> Answer {
    on_desk(state, |desk| {
        Ok(Answer {
            lost: desk.tick(time)?.into(),
            ..outcome(DESK_DONE)
        })
    })
}

/// What came of a frame that the desk heard.
fn came_of(heard: Heard, block: &mut [u8]) -> Answer {
    let handled = |detail| Answer {
        detail,
        ..outcome(DESK_HANDLED)
    };
    match heard {
        Heard::Silent(..) => outcome(DESK_SILENT),
        Heard::Fault => outcome(DESK_FAULT),
        Heard::Repeat => outcome(DESK_REPEAT),
        Heard::Handled(Source::Requested) => handled(FROM_REQUEST),
        Heard::Handled(Source::Queue) => handled(FROM_QUEUE),
        Heard::Handled(Source::Key(_)) => handled(FROM_KEY),
        Heard::Handled(Source::Panel(record)) => Answer {
            record: fill(block, &record),
            ..handled(FROM_PANEL)
        },
        Heard::Handled(Source::Contents(..)) => handled(FROM_CONTENTS),
        Heard::Handled(Source::NotMaster) => handled(FROM_DIRECTION),
        Heard::Handled(Source::NothingSet) => handled(FROM_NOTHING),
    }
}

pub(super) fn hear(
    state: &mut [u8],
    time: u32,
    frame: &[u8],
    out: &mut [u8],
    block: &mut [u8],
) -> Answer {
    on_desk(state, |desk| {
        let (lost, heard, bytes) = desk.hear(time, room(out, block), frame)?;
        // the number of each frame that is not passed over in silence
        let number = match heard {
            Heard::Silent(..) => 0,
            _ => frame.get(4).map_or(0, |digit| digit.wrapping_sub(b'0')),
        };
        let untold = is_on("a repeat's contents untold") && heard == Heard::Repeat;
        let answer = Answer {
            lost: lost.into(),
            written: send(out, &bytes),
            number: number.into(),
            ..came_of(heard, block)
        };
        Ok(match untold {
            true => answer,
            false => contents(desk.line, frame, answer),
        })
    })
}

/// Looks at the desk of a block, and leaves the block alone.
fn looked(state: &[u8], look: impl FnOnce(&Desk) -> Answer) -> Answer {
    match desk_in(state).map(|desk| (desk.due(0), desk)) {
        Some((Ok(_), desk)) => look(&desk),
        _ => refused(15, 0),
    }
}

pub(super) fn due(state: &[u8], time: u32) -> Answer {
    looked(state, |desk| due_of(desk.due(time)))
}

pub(super) fn look(state: &[u8], block: &mut [u8]) -> Answer {
    looked(state, |desk| {
        if block.len() != blocks::RECORD {
            return refused(14, 0);
        }
        let set = desk.requested.as_ref();
        Answer {
            detail: desk.key.into(),
            number: desk.last.into(),
            count: desk.queued as u32,
            lost: (!desk.good).into(),
            record: set.map_or(0, |record| fill(block, record)),
            ..outcome(DESK_DONE)
        }
    })
}

pub(super) fn waiting(state: &[u8], index: u32, block: &mut [u8]) -> Answer {
    looked(state, |desk| {
        if block.len() != blocks::RECORD {
            return refused(14, 0);
        }
        let index = index as usize;
        let mut waiting = desk.queue.iter().take(desk.queued);
        let record = match is_on("queue looked at from its end") {
            true => waiting.nth_back(index),
            false => waiting.nth(index),
        };
        Answer {
            count: desk.queued as u32,
            record: record.map_or(0, |record| fill(block, record)),
            ..outcome(DESK_DONE)
        }
    })
}
