//! Makes scripts of calls on both ends, mostly of exchanges that fit together, with lost and
//! damaged frames, refused calls, states out of their ranges and clocks that jump.

use crate::making::captures::noise;
use crate::making::damage::{damaged, DAMAGES};
use crate::making::random::Random;
use crate::making::telegrams::{any_form, approved};
use crate::making::times::{tick_time, CLOCKS, STEPS};
use crate::second::reading::{forms_on, read};
use crate::second::records::{data_type, Record};
use crate::second::script::Bench;
use crate::second::words::{in_row, shown};

/// Rows that name no call: comments, and mistyped ones.
const UNNAMED: [&str; 27] = [
    "# nothing",
    "",
    "desk tikc 5",
    "desk offer 5 66 t 116",
    "desk alter count 1",
    "master queue 5",
    "master alter last 1",
    "bench tick 5",
    "desk start 3a",
    "desk tick 1x",
    "desk tick -5",
    "desk hear 1,5 66 <08A0AAA5>",
    "desk hear 15 6/ <08A0AAA5>",
    "desk queue B 125 90 1:0 88",
    "desk set K 1 2 3 65 +16706 1234",
    "desk alter queued 1e0",
    "master start 1 0x10",
    "master start l 0",
    "master tick 5 6_6",
    "master tick 5. 66",
    "master offer 5 66 t 1l6",
    "master hear 5 66- <08A0AAA5>",
    "master alter count O",
    "elapsed 1 +2",
    "desk due 5s",
    "master due -5",
    "master clear_set",
];

/// A script in the making, and the bench that has run it so far.
struct Maker<'a> {
    random: &'a mut Random,
    bench: Bench,
    now: u32,
    rows: String,
}

/// A script of this many rows, from a start on a line.
pub fn script(random: &mut Random, line: u8, rows: usize) -> String {
    let now = CLOCKS[random.below(CLOCKS.len())];
    let mut maker = Maker {
        random,
        bench: Bench::new(),
        now,
        rows: String::new(),
    };
    maker.start(line);
    for _ in 0..rows {
        maker.next(line);
    }
    maker.rows
}

impl Maker<'_> {
    fn say(&mut self, row: String) {
        self.bench.row(&row);
        self.rows.push_str(&row);
        self.rows.push('\n');
    }

    fn start(&mut self, line: u8) {
        let now = self.now;
        self.say(format!("desk start {line}"));
        self.say(format!("master start {line} {now}"));
    }

    /// Nearly always enough room.
    fn room(&mut self) -> usize {
        match self.random.below(25) {
            0 => self.random.below(66),
            1 => self.random.from_to(65, 130),
            _ => 66,
        }
    }

    /// Mostly a telegram's record of the line, at times of another or with a value that may
    /// be out of its range.
    fn record(&mut self, line: u8, type_byte: Option<u8>) -> String {
        let line = match self.random.below(12) {
            0 => self.random.from_to(1, 3) as u8,
            _ => line,
        };
        let telegram = loop {
            let telegram = any_form(self.random, line);
            let wanted =
                type_byte.filter(|wanted| forms_on(line).any(|form| form.type_byte == *wanted));
            if wanted.is_none() || telegram.get(3).copied() == wanted {
                break telegram;
            }
        };
        let Ok(reading) = read(line, &telegram) else {
            return "t 116".into();
        };
        let mut record = Record::read(line, &reading);
        if self.random.one_in(10) {
            let index = self.random.below(record.values.len());
            if let Some(value) = record.values.get_mut(index) {
                *value = match self.random.below(3) {
                    0 => self.random.below(256) as u32,
                    1 => self.random.below(70_000) as u32,
                    _ => self.random.draw() as u32,
                };
            }
        }
        shown(&record)
    }

    /// What was sent, whole or damaged, or something else.
    fn frame(&mut self, line: u8, sent: Vec<u8>) -> String {
        let bytes = match self.random.below(20) {
            0..=12 => sent,
            13 | 14 => {
                let mut bytes = sent;
                if let Some((_, damage)) = DAMAGES.get(self.random.below(DAMAGES.len())) {
                    damage(self.random, &mut bytes);
                }
                bytes
            }
            15 | 16 => any_form(self.random, line),
            17 => damaged(self.random, line),
            18 => {
                let other = self.random.from_to(1, 3) as u8;
                any_form(self.random, other)
            }
            _ => {
                let length = self.random.below(100);
                noise(self.random, length)
            }
        };
        in_row(bytes.get(..bytes.len().min(200)).unwrap_or(&bytes))
    }

    /// A number put into a state, in its range or out of it. A count of more records than there
    /// are is put right again, since no rule says which records those would be.
    fn alter(&mut self) -> String {
        let queued = self.bench.desk.queued;
        match self.random.below(11) {
            0 => format!("desk alter line {}", self.random.byte()),
            1 => format!("desk alter good {}", self.random.below(2)),
            2 => format!("desk alter last {}", self.random.below(4)),
            3 => format!("desk alter kept {}", self.random.below(80)),
            4 => {
                self.say(format!("desk alter queued {}", queued + 9));
                self.say(format!("desk tick {}", self.now));
                format!("desk alter queued {queued}")
            }
            5 => format!("desk alter key {}", self.random.one_of(b"AXYB")),
            6 => format!("master alter line {}", self.random.byte()),
            7 => format!("master alter number {}", self.random.below(4)),
            8 => format!("master alter count {}", self.random.from_to(4, 255)),
            _ => {
                let flag = [0, 1, 2, 255, 256, 257][self.random.below(6)];
                format!("master alter operation {flag}")
            }
        }
    }

    fn next(&mut self, line: u8) {
        let step = STEPS[self.random.below(STEPS.len())];
        let short = STEPS[self.random.below(4)];
        self.now = match self.random.below(30) {
            0 => self.random.draw() as u32,
            1 => self.now.wrapping_sub(step),
            2..=9 => self.now.wrapping_add(step),
            _ => self.now.wrapping_add(short),
        };
        let (now, room) = (self.now, self.room());
        let data = data_type(line);
        let row = match self.random.below(100) {
            0..=15 => {
                let wanted = self.random.one_in(4).then_some(b't');
                let record = self.record(line, wanted);
                format!("master offer {now} {room} {record}")
            }
            16..=25 => {
                self.now = tick_time(self.random, now, &self.bench.master);
                format!("master tick {} {room}", self.now)
            }
            26..=30 => format!("desk tick {now}"),
            31..=55 => {
                let sent = self.bench.master_sent.clone();
                let frame = self.frame(line, sent);
                format!("desk hear {now} {room} {frame}")
            }
            56..=78 => {
                let frame = if self.random.one_in(6) {
                    in_row(&approved(self.random, &self.bench.master_sent))
                } else {
                    let sent = self.bench.desk_sent.clone();
                    self.frame(line, sent)
                };
                format!("master hear {now} {room} {frame}")
            }
            79..=85 => format!("desk queue {}", self.record(line, data)),
            86..=88 => format!("desk set {}", self.record(line, data)),
            89 | 90 => format!("desk key {}", in_row(&[self.random.one_of(b"AXYAXYB ")])),
            91..=93 => "desk show".into(),
            94..=96 => "master show".into(),
            97 => match self.random.below(6) {
                0 => "desk clear_queue".into(),
                1 => "desk clear_set".into(),
                2 | 3 => format!("desk due {now}"),
                _ => format!("master due {now}"),
            },
            98 if self.random.one_in(4) => format!(
                "elapsed {} {}",
                self.random.draw() as u32,
                self.random.draw() as u32
            ),
            98 if self.random.one_in(6) => self.alter(),
            99 if self.random.one_in(2) => return self.start(line),
            _ => UNNAMED[self.random.below(UNNAMED.len())].into(),
        };
        self.say(row);
    }
}
