//! Makes states of both ends, most of them in their ranges, with timers that began near a time.

use crate::making::calls::damage;
use crate::making::captures::noise;
use crate::making::random::Random;
use crate::making::telegrams::of_form;
use crate::making::times::STEPS;
use crate::second::blocks::{blank_places, desk_block, master_block};
use crate::second::desk::{Desk, ROOM};
use crate::second::master::Master;
use crate::second::reading::{forms_on, read, Form};
use crate::second::records::{by_master, data_type, Record};

/// A permitted record of one of the types that are wanted on a line.
pub fn permitted(random: &mut Random, line: u8, wanted: impl Fn(u8) -> bool) -> Record {
    let forms: Vec<&Form> = forms_on(line)
        .filter(|form| wanted(form.type_byte))
        .collect();
    let form = forms[random.below(forms.len())];
    let reading = read(line, &of_form(random, form, b'0'));
    Record::read(line, &reading.expect("a made telegram"))
}

/// When a timer began: mostly one of the limits before now, or next to it; at times later than now, or at any time.
fn began(random: &mut Random, now: u32) -> u32 {
    let step = STEPS[random.below(STEPS.len())];
    let near = random.below(5) as u32;
    match random.below(12) {
        0 => random.draw() as u32,
        1 => now.wrapping_add(near + 1),
        2 => now.wrapping_add(step),
        3 => now.wrapping_sub(random.below(30_000) as u32),
        _ => now.wrapping_sub(step).wrapping_add(near).wrapping_sub(2),
    }
}

/// A desk in its ranges.
pub fn desk(random: &mut Random, now: u32) -> Vec<u8> {
    let line = random.from_to(1, 3) as u8;
    let data = |type_byte| data_type(line) == Some(type_byte);
    let (mut state, _) = Desk::start(line);
    state.good = !random.one_in(3);
    state.last = random.below(2) as u8;
    state.t1 = began(random, now);
    if state.good || random.one_in(2) {
        state.kept = random.from_to(10, ROOM);
    }
    state.stored = noise(random, ROOM);
    if random.one_in(2) {
        state.requested = Some(permitted(random, line, data));
    }
    state.queue = blank_places();
    state.queued = random.below(9);
    let used = state.queued.max(random.below(9));
    for place in state.queue.iter_mut().take(used) {
        *place = permitted(random, line, data);
    }
    if line == 3 {
        state.key = random.one_of(b"AXY");
    }
    desk_block(&state)
}

/// A master in its ranges.
pub fn master(random: &mut Random, now: u32) -> Vec<u8> {
    let line = random.from_to(1, 3) as u8;
    let (mut state, _) = Master::start(line, began(random, now));
    state.good = !random.one_in(3);
    state.number = random.below(2) as u8;
    state.count = random.below(4) as u8;
    if state.count != 0 || random.one_in(2) {
        state.record = permitted(random, line, |type_byte| by_master(line, type_byte));
    }
    state.t2 = began(random, now);
    state.operation = line == 3 && random.one_in(2);
    master_block(&state)
}

/// A state, at times damaged, and rarely one that was never started.
pub fn perhaps_damaged(random: &mut Random, state: Vec<u8>) -> Vec<u8> {
    match random.below(40) {
        0 => vec![0; state.len()],
        1 => noise(random, state.len()),
        2..=9 => damage(random, &state),
        _ => state,
    }
}
