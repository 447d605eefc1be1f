//! Sequences of calls of desk and master by both, mostly of exchanges that fit together, with
//! lost and damaged frames, short rooms, damaged states and clocks that jump. Between them both are looked at, and what is
//! due is asked: rules E1 to E12, K1 to K6, M1 to M19, D1 to D19.

use super::states::{of_desk, of_master};
use super::{dues, Lent, Pair};
use crate::making::calls;
use crate::making::damage::DAMAGES;
use crate::making::random::Random;
use crate::making::telegrams::approved;
use crate::making::times::{tick_time, CLOCKS, STEPS};
use crate::second::blocks::{master_in, DESK, MASTER, RECORD};
use crate::second::desk::ROOM;
use crate::second::face::{Answer, Call};
use crate::second::records::data_type;

/// The most calls of a sequence.
const CALLS: usize = 200;

/// A sequence in the making: the two states, what each end sent last, and the clock.
struct Sequence<'a, 'b> {
    pair: &'a mut Pair<'b>,
    random: &'a mut Random,
    line: u8,
    now: u32,
    desk: Lent,
    master: Lent,
    from_desk: Vec<u8>,
    from_master: Vec<u8>,
    under_way: Option<Way>,
}

/// Where the newest thing sent is to arrive.
#[derive(Clone, Copy, PartialEq, Eq)]
enum Way {
    ToDesk,
    ToMaster,
}

/// Runs a number of sequences of one to 200 calls.
pub fn call(pair: &mut Pair, seed: u64, items: usize) {
    let mut random = Random::seeded(0x0400_0000 + seed);
    for _ in 0..items {
        let mut sequence = Sequence {
            line: random.from_to(1, 3) as u8,
            now: CLOCKS[random.below(CLOCKS.len())],
            desk: pair.lent(&[0; DESK]),
            master: pair.lent(&[0; MASTER]),
            from_desk: Vec::new(),
            from_master: Vec::new(),
            under_way: None,
            pair,
            random: &mut random,
        };
        sequence.start();
        // a third each are of up to 10, 40 and 200 calls
        let most = [10, 40, CALLS][sequence.random.below(3)];
        for _ in 0..sequence.random.from_to(1, most) {
            sequence.next();
        }
    }
}

impl Sequence<'_, '_> {
    /// Starts both ends on their line, at times on a missing line before that.
    fn start(&mut self) {
        if self.random.one_in(20) {
            let line = calls::line(self.random);
            let (desk, master) = (self.desk.bytes().to_vec(), self.master.bytes().to_vec());
            let (desk, master) = (
                calls::damage(self.random, &desk),
                calls::damage(self.random, &master),
            );
            let (mut desk, mut master) = (self.pair.lent(&desk), self.pair.lent(&master));
            self.pair.on(Call::DeskStart(line), &mut desk);
            self.pair.on(Call::MasterStart(line, self.now), &mut master);
        }
        let line = self.line.into();
        self.pair.on(Call::DeskStart(line), &mut self.desk);
        self.pair
            .on(Call::MasterStart(line, self.now), &mut self.master);
    }

    /// Time passes, and a call is made on one of the ends, at times on a damaged state.
    fn next(&mut self) {
        let step = STEPS[self.random.below(STEPS.len())];
        let short = STEPS[self.random.below(4)];
        self.now = match self.random.below(30) {
            0 => self.random.draw() as u32,
            1 => self.now.wrapping_sub(step),
            2..=4 => self.now.wrapping_add(step),
            _ => self.now.wrapping_add(short),
        };
        if self.random.one_in(300) {
            return self.start();
        }
        // most things that are sent arrive at once
        let arrives = self.under_way.take_if(|_| !self.random.one_in(5));
        let of_desk = match arrives {
            Some(way) => way == Way::ToDesk,
            None => self.random.one_in(2),
        };
        if arrives.is_some() || !self.random.one_in(25) {
            self.on_an_end(of_desk, arrives.is_some());
            return self.look(of_desk);
        }
        let kept = if of_desk { &self.desk } else { &self.master }.clone();
        let damaged = calls::damage(self.random, kept.bytes());
        let damaged = self.pair.lent(&damaged);
        *self.end(of_desk) = damaged;
        let answer = self.on_an_end(of_desk, false);
        // a state that every call refuses is put right again; others are now and then
        if answer.refusal == 15 || self.random.one_in(2) {
            *self.end(of_desk) = kept;
        }
    }

    /// At times both ends are looked at, and one is ticked around what is due.
    fn look(&mut self, desk_is_next: bool) {
        if self.random.one_in(12) {
            of_desk(self.pair, self.random, &self.desk, self.now);
            of_master(self.pair, self.random, &self.master, self.now);
        }
        if self.random.one_in(40) {
            let end = if desk_is_next {
                &self.desk
            } else {
                &self.master
            };
            dues::due(self.pair, self.random, desk_is_next, end, self.now);
        }
    }

    fn end(&mut self, of_desk: bool) -> &mut Lent {
        if of_desk {
            &mut self.desk
        } else {
            &mut self.master
        }
    }

    fn on_an_end(&mut self, of_desk: bool, hears: bool) -> Answer {
        let out = self.room();
        let length = if self.random.one_in(60) {
            self.random.below(80)
        } else {
            RECORD
        };
        let fill = self.random.byte();
        let (mut out, mut record) = (
            self.pair.lent(&vec![fill; out]),
            self.pair.lent(&vec![fill; length]),
        );
        if of_desk {
            self.on_desk(hears, &mut out, &mut record)
        } else {
            self.on_master(hears, &mut out, &mut record)
        }
    }

    /// Nearly always enough room.
    fn room(&mut self) -> usize {
        match self.random.below(25) {
            0 => self.random.below(ROOM),
            1 => self.random.from_to(ROOM - 1, 2 * ROOM),
            _ => ROOM,
        }
    }

    fn on_desk(&mut self, hears: bool, out: &mut Lent, record: &mut Lent) -> Answer {
        let (pair, now, line) = (&mut *self.pair, self.now, self.line);
        match self.random.below(52) {
            draw if hears || draw > 19 => {
                let frame = heard(self.random, line, &self.from_master);
                let answer = pair.call(Call::DeskHear(now, &frame), &mut self.desk, out, record);
                if keep(&mut self.from_desk, answer, out) {
                    self.under_way = Some(Way::ToMaster);
                }
                answer
            }
            0..=4 => pair.call(Call::DeskTick(now), &mut self.desk, out, record),
            5..=11 => {
                let block = calls::block(self.random, line, data_type(line));
                let mut block = pair.lent(&block);
                pair.call(Call::DeskQueue, &mut self.desk, out, &mut block)
            }
            12..=15 => {
                let block = calls::block(self.random, line, data_type(line)).into_boxed_slice();
                pair.call(Call::DeskSet(&block), &mut self.desk, out, record)
            }
            16 if self.random.one_in(2) => pair.on(Call::DeskClearQueue, &mut self.desk),
            17 => pair.on(Call::DeskClearSet, &mut self.desk),
            _ => {
                let wide = [0, 256, 65_536, 1 << 24][self.random.below(4)]
                    * u32::from(self.random.one_in(8));
                let key = u32::from(self.random.one_of(b"AXYAXYB\0")) + wide;
                pair.call(Call::DeskKey(key), &mut self.desk, out, record)
            }
        }
    }

    fn on_master(&mut self, hears: bool, out: &mut Lent, record: &mut Lent) -> Answer {
        let (pair, now, line) = (&mut *self.pair, self.now, self.line);
        let answer = match self.random.below(50) {
            draw if hears || draw > 25 => {
                let frame = if self.random.one_in(6) {
                    approved(self.random, &self.from_master).into_boxed_slice()
                } else {
                    heard(self.random, line, &self.from_desk)
                };
                pair.call(Call::MasterHear(now, &frame), &mut self.master, out, record)
            }
            0..=15 => {
                let wanted = self.random.one_in(4).then_some(b't');
                let block = calls::block(self.random, line, wanted).into_boxed_slice();
                pair.call(
                    Call::MasterOffer(now, &block),
                    &mut self.master,
                    out,
                    record,
                )
            }
            _ => {
                if let Some(master) = master_in(self.master.bytes()) {
                    self.now = tick_time(self.random, now, &master);
                }
                pair.call(Call::MasterTick(self.now), &mut self.master, out, record)
            }
        };
        if keep(&mut self.from_master, answer, out) {
            self.under_way = Some(Way::ToDesk);
        }
        answer
    }
}

/// Keeps what was sent, and says whether something was.
fn keep(sent: &mut Vec<u8>, answer: Answer, out: &Lent) -> bool {
    let bytes = out
        .bytes()
        .get(..answer.written as usize)
        .unwrap_or_default();
    if !bytes.is_empty() {
        *sent = bytes.to_vec();
    }
    !bytes.is_empty()
}

/// What the other end sent, whole or damaged, or another frame.
fn heard(random: &mut Random, line: u8, sent: &[u8]) -> Box<[u8]> {
    let index = random.below(81);
    let frame = match random.below(20) {
        0..=13 => sent.to_vec(),
        14 | 15 => {
            let mut frame = sent.to_vec();
            let (_, damage) = DAMAGES[random.below(DAMAGES.len())];
            damage(random, &mut frame);
            frame
        }
        _ => calls::frame(random, line, index),
    };
    frame.into_boxed_slice()
}
