//! The master's calls on a block: what each answers, and the bytes it leaves.

use super::{contents, due_of, fill, line_in, outcome, refused, room, send};
use crate::second::blocks::{self, master_block, master_in};
use crate::second::face::Answer;
use crate::second::master::{Master, Told, Why};
use crate::second::numbers::*;

pub(super) fn start(state: &mut [u8], line: u32, time: u32) -> Answer {
    let started = line_in(line).filter(|_| state.len() == blocks::MASTER);
    let Some(line) = started else {
        return refused(15, 0);
    };
    state.copy_from_slice(&master_block(&Master::start(line, time).0));
    outcome(MASTER_NOTHING)
}

/// What a call of the master did.
fn did(told: Told, block: &mut [u8]) -> Answer {
    let told_of = |outcome, detail, count: u8| Answer {
        outcome,
        detail,
        count: count.into(),
        ..Answer::default()
    };
    let ignored = |detail| told_of(MASTER_IGNORED, detail, 0);
    match told {
        Told::Refused(refusal) => refused(refusal, 0),
        Told::Nothing => outcome(MASTER_NOTHING),
        Told::Sent(count) => told_of(MASTER_SENT, SENT_OFFERED, count),
        Told::Again(count) => told_of(MASTER_SENT, SENT_AGAIN, count),
        Told::Polled(count) => told_of(MASTER_SENT, SENT_POLL, count),
        Told::Answered(record, count) => Answer {
            record: fill(block, &record),
            ..told_of(MASTER_ANSWERED, 0, count)
        },
        Told::OtherKind(Ok(record), count) => Answer {
            record: fill(block, &record),
            ..told_of(MASTER_OTHER_KIND, 0, count)
        },
        Told::OtherKind(Err(_), count) => told_of(MASTER_OTHER_KIND, 0, count),
        Told::Silence(count) => told_of(MASTER_GIVEN_UP, GIVEN_UP_SILENCE, count),
        Told::Rejected(count) => told_of(MASTER_GIVEN_UP, GIVEN_UP_REJECTED, count),
        Told::Ignored(Why::Free) => ignored(IGNORED_FREE),
        Told::Ignored(Why::RunOut) => ignored(IGNORED_RUN_OUT),
        Told::Ignored(Why::Refused(..)) => ignored(IGNORED_CONTENTS),
        Told::Ignored(Why::OtherNumber) => ignored(IGNORED_OTHER_NUMBER),
    }
}

/// Makes a call on the master of a block, and puts it back where the call is not refused.
pub(super) fn on_master(
    state: &mut [u8],
    out: &mut [u8],
    block: &mut [u8],
    act: impl FnOnce(&mut Master, usize) -> (Told, Vec<u8>),
) -> Answer {
    let Some(mut master) = master_in(state) else {
        return refused(15, 0);
    };
    let (told, bytes) = act(&mut master, out.len());
    let answer = did(told, block);
    if answer.refusal == 0 {
        state.copy_from_slice(&master_block(&master));
    }
    Answer {
        written: send(out, &bytes),
        ..answer
    }
}

/// Whatever came of it, the frame's refusal is told.
pub(super) fn hear(
    state: &mut [u8],
    time: u32,
    frame: &[u8],
    out: &mut [u8],
    block: &mut [u8],
) -> Answer {
    let room = room(out, block);
    let answer = on_master(state, out, block, |master, _| {
        master.hear(time, room, frame)
    });
    match master_in(state) {
        Some(master) if answer.refusal == 0 => contents(master.line, frame, answer),
        _ => answer,
    }
}

/// Looks at the master of a block, and leaves the block alone.
fn looked(state: &[u8], look: impl FnOnce(&Master) -> Answer) -> Answer {
    match master_in(state).map(|master| (master.due(0), master)) {
        Some((Ok(_), master)) => look(&master),
        _ => refused(15, 0),
    }
}

pub(super) fn due(state: &[u8], time: u32) -> Answer {
    looked(state, |master| due_of(master.due(time)))
}

pub(super) fn look(state: &[u8], block: &mut [u8]) -> Answer {
    looked(state, |master| {
        if block.len() != blocks::RECORD {
            return refused(14, 0);
        }
        let answer = Answer {
            detail: master.operation.into(),
            number: master.number.into(),
            count: master.count.into(),
            lost: (!master.good).into(),
            ..outcome(MASTER_FREE)
        };
        match master.count {
            0 => answer,
            _ => Answer {
                outcome: MASTER_WAITING,
                record: fill(block, &master.record),
                ..answer
            },
        }
    })
}
