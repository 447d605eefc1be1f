//! Runs of both ends for the judge of demand 3: calls in any order, over lines of many kinds, with clocks that jump.

use crate::line::ends::Ends;
use crate::line::odds::Odds;
use crate::line::simulated::{spoiled, Arrival, Happened, Line};
use crate::making::calls::{change, record};
use crate::making::captures::noise;
use crate::making::random::Random;
use crate::making::telegrams::any_form;
use crate::making::times::{CLOCKS, STEPS};
use crate::second::desk::ROOM;
use crate::second::records::data_type;

/// A run under way.
struct Run<'a, E> {
    line: Line<'a, E>,
    odds: Odds,
    clock: Clock,
    random: Random,
}

/// One step of so many is a long one; whether some of those are jumps.
struct Clock {
    long: usize,
    jumps: bool,
}

/// What happened in a run from a seed.
pub fn run<E: Ends>(ends: &mut E, seed: u64) -> Vec<Happened> {
    let mut random = Random::seeded(0x0500_0000_0000 + seed);
    let bad = [1, 10, 40][random.below(3)];
    let odds = Odds {
        lost: random.below(bad),
        spoiled: random.below(bad),
        hit: 0,
        of: 100,
        dead: 0..0,
        panel: 0,
    };
    let clock = Clock {
        long: [200, 40, 10, 3][random.below(4)],
        jumps: random.one_in(10),
    };
    let number = random.from_to(1, 3) as u8;
    let now = CLOCKS[random.below(CLOCKS.len())];
    let mut run = Run {
        line: Line::start(ends, number, now),
        odds,
        clock,
        random,
    };
    for _ in 0..run.random.from_to(20, 120) {
        run.next();
    }
    run.line.happened
}

/// A frame changed in some bytes, noise of its length, or a telegram that has lost its head.
fn changed(random: &mut Random, line: u8, frame: &[u8]) -> Vec<u8> {
    match random.below(4) {
        0 => noise(random, frame.len()),
        1 => any_form(random, line).split_off(random.below(9)),
        _ => {
            let mut bytes = frame.to_vec();
            change(random, &mut bytes);
            bytes
        }
    }
}

impl<E: Ends> Run<'_, E> {
    /// Time passes, and something happens.
    fn next(&mut self) {
        self.pass();
        let number = self.line.number;
        match self.random.below(20) {
            0..=9 if self.line.under_way.is_some() => self.arrive(),
            0..=3 | 10..=12 => {
                let record = record(&mut self.random, number, None);
                self.line.offer(&record);
            }
            4..=9 | 13..=16 => self.line.tick_master(),
            17 => self.line.tick_desk(),
            18 if number == 3 && self.random.one_in(2) => {
                self.line.turn_key(self.random.one_of(b"AXY"))
            }
            _ => {
                let record = record(&mut self.random, number, data_type(number));
                if self.random.one_in(3) {
                    self.line.set(record);
                } else {
                    self.line.queue(record);
                }
            }
        }
    }

    fn pass(&mut self) {
        let (random, now) = (&mut self.random, self.line.now);
        let long = STEPS[random.below(STEPS.len())];
        self.line.now = match random.below(self.clock.long) {
            0 if self.clock.jumps && random.one_in(4) => random.draw() as u32,
            0 => now.wrapping_add(long),
            _ => now.wrapping_add(random.below(400) as u32),
        };
    }

    /// What is under way arrives, at times at an end without room.
    fn arrive(&mut self) {
        let (number, now) = (self.line.number, self.line.now);
        let Some(flight) = &self.line.under_way else {
            return;
        };
        let spoil =
            |random: &mut Random| spoiled(number, || changed(random, number, &flight.frame));
        let arrival = self.odds.arrival(&mut self.random, now, spoil);
        let cramped = !matches!(arrival, Arrival::Lost) && self.random.one_in(50);
        self.line.arrive(arrival, if cramped { 0 } else { ROOM });
    }
}
