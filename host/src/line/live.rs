//! Runs of both ends on a live line (rules J12 to J16): one true time, two clocks that differ by a constant, a master that is ticked at
//! least so often, and things that are lost or arrive so soon.

use crate::line::ends::Ends;
use crate::line::simulated::{spoiled, Arrival, Event, Happened, Line, To};
use crate::making::calls::{change, record};
use crate::making::random::Random;
use crate::second::desk::{Hearing, Refusal, ROOM};
use crate::second::master::Told;
use crate::second::records::Record;

/// T2: a tick from here on after a sending sends again, or gives up.
const T2: u32 = 2_000;

/// Both ends, each called with what its own clock reads: the true time and a constant, modulo 2^32.
pub struct Clocked<'a, E> {
    ends: &'a mut E,
    master: u32,
    desk: u32,
}

impl<E: Ends> Clocked<'_, E> {
    /// Both ends with clocks that read this at the true time 0.
    pub fn new(ends: &mut E, master: u32, desk: u32) -> Clocked<'_, E> {
        Clocked { ends, master, desk }
    }

    fn at_master(&self, now: u32) -> u32 {
        self.master.wrapping_add(now)
    }

    fn at_desk(&self, now: u32) -> u32 {
        self.desk.wrapping_add(now)
    }
}

impl<E: Ends> Ends for Clocked<'_, E> {
    fn start(&mut self, line: u8, now: u32) {
        self.ends.start(line, self.at_master(now));
    }

    fn desk_tick(&mut self, now: u32) -> Result<bool, Refusal> {
        self.ends.desk_tick(self.at_desk(now))
    }

    fn desk_queue(&mut self, record: &Record) -> Result<(), Refusal> {
        self.ends.desk_queue(record)
    }

    fn desk_set(&mut self, record: &Record) -> Result<(), Refusal> {
        self.ends.desk_set(record)
    }

    fn desk_key(&mut self, key: u8) -> Result<(), Refusal> {
        self.ends.desk_key(key)
    }

    fn desk_hear(&mut self, now: u32, room: usize, frame: &[u8]) -> Result<Hearing, Refusal> {
        self.ends.desk_hear(self.at_desk(now), room, frame)
    }

    fn master_offer(&mut self, now: u32, room: usize, record: &Record) -> (Told, Vec<u8>) {
        self.ends.master_offer(self.at_master(now), room, record)
    }

    fn master_tick(&mut self, now: u32, room: usize) -> (Told, Vec<u8>) {
        self.ends.master_tick(self.at_master(now), room)
    }

    fn master_hear(&mut self, now: u32, room: usize, frame: &[u8]) -> (Told, Vec<u8>) {
        self.ends.master_hear(self.at_master(now), room, frame)
    }
}

/// What a live line keeps, in milliseconds.
#[derive(Debug, Clone, Copy)]
pub struct Limits {
    /// The longest time to the next tick, from the newest sending and from each tick after it.
    pub gap: u32,
    /// What is on the line is lost or arrives in less than this from the newest sending; none where only the next sending ends its time.
    pub quick: Option<u32>,
}

/// What is called next.
enum Move {
    Arrive,
    TickMaster,
    TickDesk,
}

/// A run under way.
struct Run<'a, E> {
    line: Line<'a, E>,
    limits: Limits,
    random: Random,
}

/// What happened in a run from a seed, with its true times.
pub fn run<E: Ends>(ends: &mut E, limits: Limits, seed: u64) -> Vec<Happened> {
    let mut random = Random::seeded(0x2600_0000_0000 + seed);
    let clock = |random: &mut Random| match random.below(3) {
        0 => 0,
        1 => random.draw() as u32,
        _ => u32::MAX - random.below(200_000) as u32,
    };
    let (master, desk) = (clock(&mut random), clock(&mut random));
    let number = random.from_to(1, 3) as u8;
    let mut ends = Clocked::new(ends, master, desk);
    let mut run = Run {
        line: Line::start(&mut ends, number, 0),
        limits,
        random,
    };
    for _ in 0..20 {
        run.telegram();
    }
    run.line.happened
}

impl<E: Ends> Run<'_, E> {
    /// A telegram from its first sending, an offer or a poll, to its end; none where the offer is refused or T0 has not run out.
    fn telegram(&mut self) {
        self.line.now += [0, 500, 20_000, 40_000][self.random.below(4)];
        if self.random.one_in(3) {
            self.line.tick_desk();
        }
        if self.random.one_in(3) {
            self.line.tick_master();
        } else {
            let record = record(&mut self.random, self.line.number, None);
            self.line.offer(&record);
        }
        while !self.line.free {
            self.sending();
        }
    }

    /// A time from now to the last: either of them, or one between.
    fn between(&mut self, last: u32) -> u32 {
        let now = self.line.now;
        match self.random.below(3) {
            0 => now,
            1 => last,
            _ => now + self.random.below((last - now + 1) as usize) as u32,
        }
    }

    /// What is called from a sending, made now, until the next or the end of the telegram.
    fn sending(&mut self) {
        let since = self.line.now;
        let mut moves = Vec::new();
        let mut ticked = since;
        for early in [self.between(since + T2 - 1), since + T2 - 1] {
            if self.random.one_in(2) {
                moves.push((early, Move::TickMaster));
                ticked = early;
            }
        }
        let next = (ticked + self.limits.gap).max(since + T2);
        let next = match self.random.below(3) {
            0 => since + T2 + self.random.below((next - since - T2 + 1) as usize) as u32,
            _ => next,
        };
        let over = self.limits.quick.map_or(next, |quick| since + quick - 1);
        let arrivals = [self.between(over), self.between(over)];
        moves.extend(arrivals.map(|at| (at, Move::Arrive)));
        moves.push((self.between(next), Move::TickDesk));
        moves.sort_by_key(|(at, _)| *at);
        moves.push((next, Move::TickMaster));
        for (at, which) in moves {
            self.line.now = at;
            let before = self.line.happened.len();
            match which {
                Move::Arrive => self.arrive(),
                Move::TickMaster => self.line.tick_master(),
                Move::TickDesk => self.line.tick_desk(),
            }
            if self.line.free || self.line.happened.iter().skip(before).any(sent_again) {
                return;
            }
        }
    }

    /// What is under way arrives, whole or spoiled, or is lost.
    fn arrive(&mut self) {
        let number = self.line.number;
        let Some(flight) = &self.line.under_way else {
            return;
        };
        let arrival = match self.random.below(8) {
            0 => Arrival::Spoiled(spoiled(number, || {
                let mut bytes = flight.frame.clone();
                change(&mut self.random, &mut bytes);
                bytes
            })),
            1 | 2 => Arrival::Lost,
            3 | 4 if flight.to == To::Master => Arrival::Lost,
            _ => Arrival::Whole,
        };
        self.line.arrive(arrival, ROOM);
    }
}

/// A telegram was sent again.
fn sent_again(thing: &Happened) -> bool {
    matches!(thing.event, Event::Told(_, Told::Again(_), _))
}
