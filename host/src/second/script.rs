//! Runs a script of calls on both ends and says what each answers, as the program `scenes`
//! does: docs/SCENES.md.

use crate::second::clock::elapsed;
use crate::second::desk::Desk;
use crate::second::master::Master;
use crate::second::records::Record;
use crate::second::words::{
    desk_whole, done, due, hearing, line, master_whole, meant, output, ticked, told,
};

/// One desk and one master, and what each sent last.
pub struct Bench {
    pub desk: Desk,
    pub master: Master,
    pub desk_sent: Vec<u8>,
    pub master_sent: Vec<u8>,
}

/// The words of a row, as a call takes them.
pub struct Row<'a> {
    pub text: &'a str,
}

impl Row<'_> {
    /// The text from a word on.
    pub fn rest(&self, index: usize) -> &str {
        self.text.splitn(index + 1, ' ').nth(index).unwrap_or("")
    }

    /// A word.
    pub fn word(&self, index: usize) -> &str {
        self.rest(index).split(' ').next().unwrap_or("")
    }

    /// A word as a number modulo 2^32, 0 where it is missing.
    pub fn number(&self, index: usize) -> u32 {
        decimal(self.word(index))
    }

    /// Whether the words that a row's call takes as numbers have nothing but digits.
    fn well_numbered(&self) -> bool {
        let numbers: Vec<usize> = match (self.word(0), self.word(1)) {
            ("desk", "start" | "tick" | "due") | ("master", "due") => vec![2],
            ("desk", "hear") | ("master", "start" | "tick" | "hear") => vec![2, 3],
            ("desk", "queue" | "set") => (3..13).collect(),
            ("master", "offer") => [2, 3].into_iter().chain(5..15).collect(),
            ("desk" | "master", "alter") => vec![3],
            ("elapsed", _) => vec![1, 2],
            _ => Vec::new(),
        };
        let digits = |index| self.word(index).bytes().all(|byte| byte.is_ascii_digit());
        numbers.into_iter().all(digits)
    }

    fn small(&self, index: usize) -> u8 {
        self.number(index) as u8
    }

    /// The record from a word on, with as many values as its type has.
    pub fn record(&self, index: usize) -> Record {
        let mut words = self.rest(index).split(' ');
        let type_byte = words
            .next()
            .and_then(|word| word.bytes().next())
            .unwrap_or(0);
        let values = words.map(decimal).collect();
        Record { type_byte, values }
    }
}

impl Default for Bench {
    fn default() -> Self {
        Bench::new()
    }
}

impl Bench {
    /// Before any start both ends are blank states of line 0.
    pub fn new() -> Bench {
        Bench {
            desk: Desk::start(0).0,
            master: Master::start(0, 0).0,
            desk_sent: Vec::new(),
            master_sent: Vec::new(),
        }
    }

    /// The desk's state as each answer says it.
    fn desk_state(&self) -> String {
        let desk = &self.desk;
        format!(
            "; {}, last {}, queued {}",
            line(desk.good),
            desk.last,
            desk.queued
        )
    }

    /// The master's state as each answer says it.
    fn master_state(&self) -> String {
        let master = &self.master;
        format!(
            "; {}, number {}, count {}",
            line(master.good),
            master.number,
            master.count
        )
    }

    fn on_desk(&mut self, row: &Row) -> String {
        let desk = &mut self.desk;
        let answer = match row.word(1) {
            "start" => {
                let (fresh, refusal) = Desk::start(row.small(2));
                *desk = fresh;
                done(refusal.map_or(Ok(()), Err))
            }
            "tick" => ticked(desk.tick(row.number(2))),
            "queue" => done(desk.queue(row.record(2))),
            "set" => done(desk.set(row.record(2))),
            "key" => done(desk.turn_key(meant(row.rest(2)).first().copied().unwrap_or(0))),
            "clear_queue" => done(desk.clear_queue()),
            "clear_set" => done(desk.clear_set()),
            "due" => due(desk.due(row.number(2))),
            "hear" => {
                let (now, room) = (row.number(2), row.number(3) as usize);
                let answer = desk.hear(now, room, &meant(row.rest(4)));
                if let Ok((_, _, bytes)) = &answer {
                    self.desk_sent = bytes.clone();
                }
                hearing(answer)
            }
            "show" => return format!("  {}{}\n", desk_whole(desk), self.desk_state()),
            "alter" => {
                let value = row.number(3);
                match row.word(2) {
                    "line" => desk.line = value as u8,
                    "good" => desk.good = value != 0,
                    "last" => desk.last = value as u8,
                    "kept" => desk.kept = value as usize,
                    "queued" => desk.queued = value as usize,
                    "key" => desk.key = value as u8,
                    _ => return none(),
                }
                "altered".into()
            }
            _ => return none(),
        };
        format!("  {answer}{}\n", self.desk_state())
    }

    fn on_master(&mut self, row: &Row) -> String {
        let master = &mut self.master;
        let (now, room) = (row.number(2), row.number(3) as usize);
        let (answer, bytes) = match row.word(1) {
            "start" => {
                let (fresh, told) = Master::start(row.small(2), row.number(3));
                *master = fresh;
                (told, Vec::new())
            }
            "tick" => master.tick(now, room),
            "offer" => master.offer(now, room, row.record(4)),
            "hear" => master.hear(now, room, &meant(row.rest(4))),
            "due" => return format!("  {}{}\n", due(master.due(now)), self.master_state()),
            "show" => return format!("  {}{}\n", master_whole(master), self.master_state()),
            "alter" => {
                let value = row.small(3);
                match row.word(2) {
                    "line" => master.line = value,
                    "number" => master.number = value,
                    "count" => master.count = value,
                    "operation" => master.operation = value != 0,
                    _ => return none(),
                }
                return format!("  altered{}\n", self.master_state());
            }
            _ => return none(),
        };
        let text = format!(
            "  {}{}{}\n",
            told(&answer),
            output(&bytes),
            self.master_state()
        );
        if !bytes.is_empty() {
            self.master_sent = bytes;
        }
        text
    }

    /// Says a row again, makes its call and says what came. A comment and an empty row are only
    /// said; any other row that names no call, or has a number that is none, is said to be none.
    pub fn row(&mut self, text: &str) -> String {
        let row = Row { text };
        let came = match row.word(0) {
            _ if !row.well_numbered() => none(),
            "desk" => self.on_desk(&row),
            "master" => self.on_master(&row),
            "elapsed" => format!("  {}\n", elapsed(row.number(1), row.number(2))),
            _ if text.is_empty() || text.starts_with('#') => String::new(),
            _ => none(),
        };
        format!("{text}\n{came}")
    }
}

/// The number that digits say, modulo 2^32.
fn decimal(word: &str) -> u32 {
    let behind = |n: u32, byte: u8| n.wrapping_mul(10).wrapping_add((byte - b'0').into());
    word.bytes().filter(u8::is_ascii_digit).fold(0, behind)
}

/// What is said of a row that names no call.
fn none() -> String {
    "  no such row\n".into()
}

/// Runs a whole script.
pub fn run(script: &str) -> String {
    let mut bench = Bench::new();
    script.lines().map(|text| bench.row(text)).collect()
}
