//! The desk, the slave's end of a line: rules D1 to D19, E1 to E12, R12 to R15
//! and R17.

use crate::second::clock::{left, run_out};
use crate::second::faults::is_on;
use crate::second::reading::read;
use crate::second::records::{by_master, data_type, Record};

/// A call that may send wants this much room.
pub const ROOM: usize = 66;
/// T1, in milliseconds.
const T1: u32 = 28_000;

/// What a refused call answers, with place 0.
pub type Refusal = u8;

/// Where the answer to a handled telegram comes from.
#[derive(Debug, Clone, PartialEq, Eq)]
pub enum Source {
    Requested,
    Queue,
    Key(u8),
    Panel(Record),
    Contents(u8, usize),
    NotMaster,
    NothingSet,
}

/// What came of a frame that the desk heard.
#[derive(Debug, Clone, PartialEq, Eq)]
pub enum Heard {
    Silent(u8, usize),
    Fault,
    Repeat,
    Handled(Source),
}

/// Whether the line was noted lost, what came of a frame that the desk heard, and what it sends.
pub type Hearing = (bool, Heard, Vec<u8>);

/// The desk's state. `queued` is a count of its own, so that a script can put it out of its
/// range; records behind that count are not looked at, and a missing one is no record.
#[derive(Debug, Clone)]
pub struct Desk {
    pub line: u8,
    pub good: bool,
    pub last: u8,
    pub t1: u32,
    pub kept: usize,
    pub stored: Vec<u8>,
    pub requested: Option<Record>,
    pub queued: usize,
    pub queue: Vec<Record>,
    pub key: u8,
}

impl Desk {
    /// A start on a line; 15 and a blank state of line 0 where there is no such line.
    pub fn start(line: u8) -> (Desk, Option<Refusal>) {
        let known = matches!(line, 1..=3);
        let desk = Desk {
            line: if known { line } else { 0 },
            good: false,
            last: 0,
            t1: 0,
            kept: 0,
            stored: vec![0; ROOM],
            requested: None,
            queued: 0,
            queue: Vec::new(),
            key: b'A',
        };
        (desk, if known { None } else { Some(15) })
    }

    fn in_ranges(&self) -> bool {
        let kept = match self.kept {
            0 => !self.good,
            length => matches!(length, 10..=66),
        };
        let keys: &[u8] = if self.line == 3 { b"AXY" } else { b"A" };
        matches!(self.line, 1..=3)
            && self.last < 2
            && kept
            && self.queued <= self.queue.len().min(8)
            && keys.contains(&self.key)
            && self
                .requested
                .iter()
                .chain(self.queue.iter().take(self.queued))
                .all(|record| self.may_answer(record).is_none())
    }

    /// 12 for all but the slave's data type, then 13 for a value that is not permitted.
    fn may_answer(&self, record: &Record) -> Option<Refusal> {
        if data_type(self.line) != Some(record.type_byte) {
            return Some(12);
        }
        record.telegram(self.line, 0).is_none().then_some(13)
    }

    /// At each hear and tick, first: line good and T1 run out means line lost.
    fn first_rule(&mut self, now: u32) -> bool {
        let lost = self.good && run_out(now, self.t1, T1);
        if lost {
            self.good = false;
        }
        lost
    }

    /// Whether the line was noted lost.
    pub fn tick(&mut self, now: u32) -> Result<bool, Refusal> {
        if !self.in_ranges() {
            return Err(15);
        }
        Ok(self.first_rule(now))
    }

    pub fn queue(&mut self, record: Record) -> Result<(), Refusal> {
        if !self.in_ranges() {
            return Err(15);
        }
        if let Some(refusal) = self.may_answer(&record) {
            return Err(refusal);
        }
        if self.queued == 8 {
            return Err(17);
        }
        self.queue.truncate(self.queued);
        self.queue.push(record);
        self.queued += 1;
        Ok(())
    }

    pub fn set(&mut self, record: Record) -> Result<(), Refusal> {
        if !self.in_ranges() {
            return Err(15);
        }
        if let Some(refusal) = self.may_answer(&record) {
            return Err(refusal);
        }
        self.requested = Some(record);
        Ok(())
    }

    /// The queue is empty again; all else stays.
    pub fn clear_queue(&mut self) -> Result<(), Refusal> {
        if !self.in_ranges() {
            return Err(15);
        }
        self.queued = 0;
        self.queue.clear();
        Ok(())
    }

    /// No record is set for r any more; all else stays.
    pub fn clear_set(&mut self) -> Result<(), Refusal> {
        if !self.in_ranges() {
            return Err(15);
        }
        self.requested = None;
        Ok(())
    }

    /// After how many milliseconds a tick does something; none where no tick does.
    pub fn due(&self, now: u32) -> Result<Option<u32>, Refusal> {
        if !self.in_ranges() {
            return Err(15);
        }
        Ok(self.good.then(|| left(now, self.t1, T1)))
    }

    pub fn turn_key(&mut self, key: u8) -> Result<(), Refusal> {
        if !self.in_ranges() {
            return Err(15);
        }
        if self.line != 3 {
            return Err(12);
        }
        if !b"AXY".contains(&key) {
            return Err(13);
        }
        self.key = key;
        Ok(())
    }

    /// Hears a frame.
    pub fn hear(&mut self, now: u32, room: usize, frame: &[u8]) -> Result<Hearing, Refusal> {
        if !self.in_ranges() {
            return Err(15);
        }
        if room < ROOM {
            return Err(14);
        }
        let lost = self.first_rule(now);
        let digit = frame.get(4).copied().unwrap_or(0);
        let reading = read(self.line, frame);
        let number = match &reading {
            Ok(reading) => reading.number,
            Err((6, place)) if !b"01".contains(&digit) => {
                return Ok((lost, Heard::Silent(6, *place), Vec::new()))
            }
            Err((6, _)) => {
                let answer = Record::with(b'N', b'1').telegram(self.line, digit - b'0');
                let answer = answer.unwrap_or_default();
                if is_on("fault stored") {
                    self.store(&answer);
                }
                return Ok((lost, Heard::Fault, answer));
            }
            Err((refusal @ 1..=7, place)) => {
                return Ok((lost, Heard::Silent(*refusal, *place), Vec::new()))
            }
            Err(_) => digit - b'0',
        };
        let popped = is_on("queue popped on a repeat") && frame.get(3) == Some(&b't');
        if self.good && number == self.last && !popped {
            let answer = self.stored.get(..self.kept).unwrap_or(&[]).to_vec();
            return Ok((lost, Heard::Repeat, answer));
        }
        let record = reading.map(|reading| Record::read(self.line, &reading));
        let (answer, source) = self.answer(record);
        let bytes = answer.telegram(self.line, number).unwrap_or_default();
        self.good = true;
        self.last = number;
        self.t1 = now;
        self.store(&bytes);
        Ok((lost, Heard::Handled(source), bytes))
    }

    /// Stores an answer.
    fn store(&mut self, bytes: &[u8]) {
        self.kept = bytes.len();
        self.stored = bytes.to_vec();
        self.stored.resize(ROOM, 0);
    }

    /// The answer to a telegram that is handled, and where it comes from.
    fn answer(&mut self, heard: Result<Record, (u8, usize)>) -> (Record, Source) {
        let refused = Record::with(b'N', b'A');
        let record = match heard {
            Ok(record) => record,
            Err((refusal, place)) => return (refused, Source::Contents(refusal, place)),
        };
        if !by_master(self.line, record.type_byte) {
            return (refused, Source::NotMaster);
        }
        match record.type_byte {
            b'r' => match &self.requested {
                Some(set) => (set.clone(), Source::Requested),
                None => (refused, Source::NothingSet),
            },
            b't' if self.queued == 0 => {
                let key = if self.line == 3 { self.key } else { b'A' };
                (Record::with(b'A', key), Source::Key(key))
            }
            b't' => {
                self.queued -= 1;
                (self.queue.remove(0), Source::Queue)
            }
            _ => (Record::with(b'A', b'A'), Source::Panel(record)),
        }
    }
}
