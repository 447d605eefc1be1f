//! Makes logs: of exchanges that fit together, with repeats, damaged, empty and long frames, hits
//! and clocks that jump; and spoils them.

use crate::making::captures::noise;
use crate::making::damage::damaged;
use crate::making::random::Random;
use crate::making::telegrams::any_form;
use crate::making::times::{CLOCKS, STEPS};
use crate::second::framing::{framed, seal};
use crate::second::logs::{add, Entry, Mark, HEAD};
use crate::second::reading::LONGEST;

/// A log of records, without the line digit.
pub fn log_of(records: &[(Mark, u32, &[u8])]) -> Vec<u8> {
    let mut log = Vec::new();
    for (mark, time, bytes) in records {
        let (mark, time) = (*mark, *time);
        add(&mut log, &Entry { mark, time, bytes }).expect("a record of a right length");
    }
    log
}

/// A small log of line 1 with each mark, an empty frame, a repeat, a fault and a lost line.
pub fn small() -> Vec<u8> {
    let g = framed(b'G', b'0', b"E288");
    log_of(&[
        (Mark::Master, 0x0102_0304, &g),
        (Mark::Slave, 0x0102_0305, b"\n08A0AAA5\r"),
        (Mark::Hit, 0x0102_0306, b""),
        (Mark::Master, 0x0102_0307, &g),
        (Mark::Master, 0x0102_0308, b""),
        (Mark::Master, 0x0102_0309, b"\n08t1Bt3E\r"),
        (Mark::Hit, 0x0102_0304 + 28_000, b""),
    ])
}

/// A log in the making.
struct Maker<'a> {
    random: &'a mut Random,
    line: u8,
    now: u32,
    number: u8,
    sent: Vec<u8>,
}

/// A log of so many records for a line, without the line digit.
pub fn log(random: &mut Random, line: u8, records: usize) -> Vec<u8> {
    let now = CLOCKS[random.below(CLOCKS.len())];
    let mut maker = Maker {
        random,
        line,
        now,
        number: b'0',
        sent: Vec::new(),
    };
    let mut log = Vec::new();
    for _ in 0..records {
        maker.pass();
        let (mark, bytes) = maker.next();
        let (time, bytes) = (maker.now, bytes.as_slice());
        add(&mut log, &Entry { mark, time, bytes }).expect("a record of a right length");
    }
    log
}

impl Maker<'_> {
    /// Time passes; at times it goes back or jumps.
    fn pass(&mut self) {
        let step = match self.random.below(3) {
            0 => STEPS[self.random.below(STEPS.len())],
            _ => self.random.below(3_000) as u32,
        };
        self.now = match self.random.below(60) {
            0 => self.random.draw() as u32,
            1 | 2 => self.now.wrapping_sub(step),
            _ => self.now.wrapping_add(step),
        };
    }

    fn next(&mut self) -> (Mark, Vec<u8>) {
        match self.random.below(10) {
            0 | 1 => (Mark::Hit, Vec::new()),
            2 | 3 => (Mark::Slave, self.frame()),
            _ => (Mark::Master, self.sending()),
        }
    }

    /// Often a telegram with the other number or the last sending again, else any frame.
    fn sending(&mut self) -> Vec<u8> {
        match self.random.below(8) {
            0 | 1 if !self.sent.is_empty() => self.sent.clone(),
            0..=4 => {
                let mut frame = any_form(self.random, self.line);
                self.number ^= 1;
                if let Some(number) = frame.get_mut(4) {
                    *number = self.number;
                }
                seal(&mut frame);
                self.sent = frame.clone();
                frame
            }
            _ => self.frame(),
        }
    }

    /// Any frame of 0 to 66 bytes.
    fn frame(&mut self) -> Vec<u8> {
        let mut frame = match self.random.below(8) {
            0 => Vec::new(),
            1 => framed(b'A', b'0', &[b'A'; 58]),
            2 => {
                let length = self.random.below(LONGEST + 1);
                noise(self.random, length)
            }
            3 => {
                let other = self.random.from_to(1, 3) as u8;
                any_form(self.random, other)
            }
            4 | 5 => damaged(self.random, self.line),
            _ => any_form(self.random, self.line),
        };
        frame.truncate(LONGEST);
        frame
    }
}

/// Spoils a log: cuts it, changes a byte, or puts a record behind it that is refused.
pub fn spoil(random: &mut Random, log: &mut Vec<u8>) {
    let index = random.below(log.len());
    match random.below(6) {
        0 => log.truncate(index),
        1 => log.truncate(log.len().saturating_sub(random.below(2 * HEAD))),
        2 | 3 => {
            if let Some(byte) = log.get_mut(index) {
                *byte = random.byte();
            }
        }
        4 => log.extend(refused(random)),
        _ => {
            let length = random.below(2 * HEAD);
            log.extend(noise(random, length));
        }
    }
}

/// A record that is refused: of another mark or a bad length, or cut off.
fn refused(random: &mut Random) -> Vec<u8> {
    let marks = [
        *b"M>", *b"S>", *b"H!", *b"M!", *b"H>", *b">M", *b"m>", *b"\nM",
    ];
    let mark = marks[random.below(marks.len())];
    let length = [0, 1, 65, 66, 67, 127, 128, 255][random.below(8)];
    let mut record = [&mark[..], &random.draw().to_be_bytes()[..4], &[length]].concat();
    record.extend(noise(random, usize::from(length)));
    record.truncate(random.below(record.len() + 1));
    record
}
