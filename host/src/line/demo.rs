//! The demonstration: both ends over a line of some odds, with people at both ends, in turns of ten milliseconds.
//! Demand 3, and rules J1 to J10.

use crate::line::ends::Ends;
use crate::line::odds::Odds;
use crate::line::simulated::{spoiled, Event, Flight, Happened, Line};
use crate::making::random::Random;
use crate::making::telegrams::any_form;
use crate::second::desk::ROOM;
use crate::second::reading::read;
use crate::second::records::{by_master, data_type, Record};

/// A demonstration under way.
struct Demo<'a, E> {
    line: Line<'a, E>,
    odds: &'a Odds,
    random: Random,
}

/// Runs both ends on a line, from a seed, for some milliseconds, and gives what happened.
pub fn run<E: Ends>(
    ends: &mut E,
    odds: &Odds,
    line: u8,
    seed: u64,
    duration: u32,
) -> Vec<Happened> {
    let mut demo = Demo {
        line: Line::start(ends, line, 0),
        odds,
        random: Random::seeded(seed),
    };
    while demo.line.now < duration {
        demo.line.now += 10;
        demo.turn();
    }
    demo.line.happened
}

/// When what is under way arrives: ten bits a byte at 9,600 a second.
fn due(flight: &Flight) -> u32 {
    flight.sent + 10 + flight.frame.len() as u32 * 10 / 9
}

/// A frame with one character changed.
fn changed(random: &mut Random, frame: &[u8]) -> Vec<u8> {
    let mut bytes = frame.to_vec();
    let index = random.from_to(1, bytes.len().saturating_sub(2));
    if let Some(byte) = bytes.get_mut(index) {
        *byte = random.one_of(b"0123456789ABCDEF+-");
    }
    bytes
}

impl<E: Ends> Demo<'_, E> {
    fn turn(&mut self) {
        let now = self.line.now;
        if now == self.odds.dead.start {
            self.line.note(Event::Dead);
        }
        if now == self.odds.dead.end {
            self.line.note(Event::Back);
        }
        self.arrive();
        if now % 50 == 0 {
            self.line.tick_master();
            self.line.tick_desk();
        }
        if self.line.free && self.random.one_in(150) {
            self.offer();
        }
        if self.odds.panel > 0 && self.random.one_in(self.odds.panel) {
            self.panel();
        }
    }

    /// What is under way arrives when it is due.
    fn arrive(&mut self) {
        let (number, now) = (self.line.number, self.line.now);
        let under_way = self.line.under_way.as_ref();
        let Some(flight) = under_way.filter(|flight| due(flight) <= now) else {
            return;
        };
        let spoil = |random: &mut Random| spoiled(number, || changed(random, &flight.frame));
        let arrival = self.odds.arrival(&mut self.random, now, spoil);
        self.line.arrive(arrival, ROOM);
    }

    /// A record of one of these types with random permitted values.
    fn record(&mut self, wanted: impl Fn(u8) -> bool) -> Record {
        let line = self.line.number;
        loop {
            match read(line, &any_form(&mut self.random, line)) {
                Ok(reading) if wanted(reading.type_byte) => return Record::read(line, &reading),
                _ => {}
            }
        }
    }

    /// The bench offers its master a record.
    fn offer(&mut self) {
        let line = self.line.number;
        let record = self.record(|type_byte| by_master(line, type_byte));
        self.line.offer(&record);
    }

    /// The panel queues a record, sets one for r, or on line 3 has its key turned (001 8.8).
    fn panel(&mut self) {
        let line = self.line.number;
        if line == 3 && self.random.one_in(4) {
            return self.line.turn_key(self.random.one_of(b"AXY"));
        }
        let record = self.record(|type_byte| Some(type_byte) == data_type(line));
        match self.random.below(3) {
            0 => self.line.set(record),
            _ => self.line.queue(record),
        }
    }
}
