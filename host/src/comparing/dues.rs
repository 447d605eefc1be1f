//! What is due of an end, asked of both, and the ticks before, at and after that time.

use super::{Lent, Pair};
use crate::making::random::Random;
use crate::second::blocks::RECORD;
use crate::second::desk::ROOM;
use crate::second::face::Call;
use crate::second::numbers::{DESK_DONE, DUE_AFTER, DUE_NEVER, MASTER_NOTHING};

/// Ticks a copy of a state, and says whether that did something. A tick that sends nothing and changes nothing does nothing.
fn does(pair: &mut Pair, of_desk: bool, state: &Lent, time: u32) -> bool {
    let mut after = state.clone();
    let mut out = pair.lent(&[0x11; ROOM]);
    let mut record = pair.lent(&[0x22; RECORD]);
    let call = if of_desk {
        Call::DeskTick(time)
    } else {
        Call::MasterTick(time)
    };
    let answer = pair.call(call, &mut after, &mut out, &mut record);
    let idle = if of_desk { DESK_DONE } else { MASTER_NOTHING };
    let told = (answer.outcome, answer.lost) != (idle, 0);
    let changed = after != *state || out.bytes() != [0x11; ROOM];
    assert_eq!(told, changed, "{call:?} differs\nfrom what it tells");
    told
}

/// Asks what is due of a state, and ticks copies of it around that time. Before it a tick does nothing, at it something;
/// where nothing is due, no tick does anything.
pub fn due(pair: &mut Pair, random: &mut Random, of_desk: bool, state: &Lent, now: u32) {
    let call = if of_desk {
        Call::DeskDue(now)
    } else {
        Call::MasterDue(now)
    };
    let answer = pair.on(call, &mut state.clone());
    if answer.refusal != 0 {
        return;
    }
    let after = answer.detail;
    let mut ticks = |after: u32| does(pair, of_desk, state, now.wrapping_add(after));
    match answer.outcome {
        DUE_NEVER => {
            for after in [0, 28_000, random.draw() as u32] {
                assert!(!ticks(after), "{call:?} differs\nwith a tick {after} later");
            }
        }
        DUE_AFTER => {
            let early = random.below(after as usize) as u32;
            let early = [0, early, after.wrapping_sub(2), after.wrapping_sub(1)];
            for early in early.into_iter().filter(|early| *early < after) {
                assert!(!ticks(early), "{call:?} differs\nwith a tick {early} later");
            }
            assert!(ticks(after), "{call:?} differs\nwith a tick {after} later");
            ticks(after.wrapping_add(1));
            ticks(after.wrapping_add(random.draw() as u32));
        }
        other => panic!("{call:?} differs\nwith outcome {other}"),
    }
}
