//! States of both ends looked at, asked what is due, ticked and cleared by both.

use super::{dues, Lent, Pair};
use crate::making::random::Random;
use crate::making::states::{desk, master, perhaps_damaged};
use crate::making::times::CLOCKS;
use crate::second::blocks::RECORD;
use crate::second::face::{Answer, Call};

/// Looks at a number of states of each end.
pub fn look(pair: &mut Pair, seed: u64, items: usize) {
    let mut random = Random::seeded(0x0B00_0000 + seed);
    for _ in 0..items {
        let now = match random.below(3) {
            0 => random.draw() as u32,
            1 => (random.below(60_000) as u32).wrapping_sub(30_000),
            _ => CLOCKS[random.below(CLOCKS.len())],
        };
        let state = desk(&mut random, now);
        let state = pair.lent(&perhaps_damaged(&mut random, state));
        of_desk(pair, &mut random, &state, now);
        for index in (0..10).chain([256, 1 << 16, u32::MAX]) {
            lent(pair, &mut random, Call::DeskWaiting(index), &state);
        }
        dues::due(pair, &mut random, true, &state, now);
        cleared(pair, &mut random, &state);
        let state = master(&mut random, now);
        let state = pair.lent(&perhaps_damaged(&mut random, state));
        of_master(pair, &mut random, &state, now);
        dues::due(pair, &mut random, false, &state, now);
    }
}

/// A look at a state, which stays as it is; the block to fill has at times another length.
fn lent(pair: &mut Pair, random: &mut Random, call: Call, state: &Lent) -> Answer {
    let length = match random.below(20) {
        0 => random.below(80),
        1 => [RECORD - 1, RECORD + 1][random.below(2)],
        _ => RECORD,
    };
    let mut record = pair.lent(&vec![random.byte(); length]);
    let mut out = pair.lent(&[]);
    pair.call(call, &mut state.clone(), &mut out, &mut record)
}

/// Looks at a desk in each way.
pub fn of_desk(pair: &mut Pair, random: &mut Random, state: &Lent, now: u32) {
    let index = random.below(10) as u32;
    lent(pair, random, Call::DeskLook, state);
    lent(pair, random, Call::DeskWaiting(index), state);
    lent(pair, random, Call::DeskDue(now), state);
}

/// Looks at a master in each way.
pub fn of_master(pair: &mut Pair, random: &mut Random, state: &Lent, now: u32) {
    lent(pair, random, Call::MasterLook, state);
    lent(pair, random, Call::MasterDue(now), state);
}

/// Clears the queue, the record set, and both, each on a copy; a look then finds nothing.
fn cleared(pair: &mut Pair, random: &mut Random, state: &Lent) {
    let (mut queue, mut set) = (state.clone(), state.clone());
    let answer = pair.on(Call::DeskClearQueue, &mut queue);
    pair.on(Call::DeskClearSet, &mut set);
    let look = lent(pair, random, Call::DeskLook, &set);
    let empty = lent(pair, random, Call::DeskWaiting(0), &queue);
    assert_eq!((look.record, empty.count), (0, 0), "clearing differs\n");
    if answer.refusal == 0 {
        pair.on(Call::DeskClearSet, &mut queue);
        pair.on(Call::DeskClearQueue, &mut set);
        assert_eq!(queue, set, "clearing in another order differs\n");
    }
}
