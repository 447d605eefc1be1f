//! The master's end of a line: rules K4, M1 to M19, E1 to E12 and R12 to R16.

use crate::second::clock::{left, run_out};
use crate::second::desk::{Refusal, ROOM};
use crate::second::faults::is_on;
use crate::second::reading::read;
use crate::second::records::{by_master, data_type, Record};

/// T2, in milliseconds.
const T2: u32 = 2_000;

/// Why a hearing was ignored.
#[derive(Debug, Clone, PartialEq, Eq)]
pub enum Why {
    Free,
    RunOut,
    Refused(u8, usize),
    OtherNumber,
}

/// What a call did; the numbers are sending counts.
#[derive(Debug, Clone, PartialEq, Eq)]
pub enum Told {
    Refused(Refusal),
    Nothing,
    Sent(u8),
    Again(u8),
    Polled(u8),
    Answered(Record, u8),
    OtherKind(Result<Record, (u8, usize)>, u8),
    Silence(u8),
    Rejected(u8),
    Ignored(Why),
}

/// The master's state; a count of 0 is free. `operation`: the last A that answered t on line 3
/// carried X, so that the driver's key is in position Operation (001 8.6, 8.8).
#[derive(Debug, Clone)]
pub struct Master {
    pub line: u8,
    pub good: bool,
    pub number: u8,
    pub count: u8,
    pub record: Record,
    pub t0: u32,
    pub t2: u32,
    pub operation: bool,
}

impl Master {
    /// A start on a line; 15 and a blank state of line 0 where there is no such line.
    pub fn start(line: u8, now: u32) -> (Master, Told) {
        let known = matches!(line, 1..=3);
        let (line, now, told) = if known {
            (line, now, Told::Nothing)
        } else {
            (0, 0, Told::Refused(15))
        };
        let master = Master {
            line,
            good: known,
            number: 0,
            count: 0,
            record: Record::with(b't', b't'),
            t0: now,
            t2: now,
            operation: false,
        };
        (master, told)
    }

    /// 12 where the master does not send this type, then 13 for a value that is not permitted.
    fn may_send(&self, record: &Record) -> Option<Refusal> {
        if !by_master(self.line, record.type_byte) {
            return Some(12);
        }
        record.telegram(self.line, 0).is_none().then_some(13)
    }

    /// 15 where the state is out of its ranges, then 14 where there is too little room.
    fn refuses(&self, room: usize) -> Option<Refusal> {
        let numbers = matches!(self.line, 1..=3) && self.number < 2 && self.count < 4;
        let flag = self.line == 3 || !self.operation;
        if !numbers || !flag || (self.count != 0 && self.may_send(&self.record).is_some()) {
            return Some(15);
        }
        (room < ROOM).then_some(14)
    }

    /// T0, in milliseconds: 001 3.2.1 and 6.9, 7.3, 8.6.
    fn poll_time(&self) -> u32 {
        match self.line {
            1 => 20_000,
            2 => 5_000,
            _ if self.operation => 20_000,
            _ => 10_000,
        }
    }

    /// What the line is polled with: 001 6.9, 7.3, 8.6.
    fn poll(&self) -> Record {
        match self.line {
            1 => Record::with(b'r', b'B'),
            2 => Record::with(b'r', b'5'),
            _ => Record::with(b't', b't'),
        }
    }

    /// Every sending restarts T0 and T2.
    fn send(&mut self, now: u32) -> Vec<u8> {
        self.count += 1;
        self.t0 = now;
        self.t2 = now;
        self.record
            .telegram(self.line, self.number)
            .unwrap_or_default()
    }

    /// Sent again, or given up at count 3.
    fn failed(&mut self, now: u32, give_up: fn(u8) -> Told) -> (Told, Vec<u8>) {
        if self.count < 3 {
            let bytes = self.send(now);
            return (Told::Again(self.count), bytes);
        }
        let told = give_up(self.count);
        self.count = 0;
        self.number = if is_on("number changed") {
            1 - self.number
        } else {
            0
        };
        (told, Vec::new())
    }

    pub fn offer(&mut self, now: u32, room: usize, record: Record) -> (Told, Vec<u8>) {
        let refused = |refusal| (Told::Refused(refusal), Vec::new());
        if let Some(refusal) = self.refuses(room) {
            return refused(refusal);
        }
        if self.count != 0 {
            return refused(16);
        }
        if let Some(refusal) = self.may_send(&record) {
            return refused(refusal);
        }
        self.record = record;
        let bytes = self.send(now);
        (Told::Sent(1), bytes)
    }

    pub fn tick(&mut self, now: u32, room: usize) -> (Told, Vec<u8>) {
        if let Some(refusal) = self.refuses(room) {
            return (Told::Refused(refusal), Vec::new());
        }
        if self.count != 0 {
            if !run_out(now, self.t2, T2) {
                return (Told::Nothing, Vec::new());
            }
            let step = self.failed(now, Told::Silence);
            if matches!(step.0, Told::Silence(_)) {
                self.good = false;
            }
            return step;
        }
        if !run_out(now, self.t0, self.poll_time()) {
            return (Told::Nothing, Vec::new());
        }
        self.record = self.poll();
        let bytes = self.send(now);
        (Told::Polled(1), bytes)
    }

    /// After how many milliseconds a tick does something. It sends nothing, so it wants no room.
    pub fn due(&self, now: u32) -> Result<Option<u32>, Refusal> {
        if let Some(refusal) = self.refuses(ROOM) {
            return Err(refusal);
        }
        let after = if self.count == 0 {
            left(now, self.t0, self.poll_time())
        } else {
            left(now, self.t2, T2)
        };
        Ok(Some(after))
    }

    pub fn hear(&mut self, now: u32, room: usize, frame: &[u8]) -> (Told, Vec<u8>) {
        let quiet = |told| (told, Vec::new());
        if let Some(refusal) = self.refuses(room) {
            return quiet(Told::Refused(refusal));
        }
        if self.count == 0 {
            return quiet(Told::Ignored(Why::Free));
        }
        if run_out(now, self.t2, T2) {
            return quiet(Told::Ignored(Why::RunOut));
        }
        let reading = read(self.line, frame);
        if let Err((refusal @ 1..=7, place)) = reading {
            return quiet(Told::Ignored(Why::Refused(refusal, place)));
        }
        if frame.get(4) != Some(&(b'0' + self.number)) {
            return quiet(Told::Ignored(Why::OtherNumber));
        }
        self.good = true;
        let heard = reading.map(|reading| Record::read(self.line, &reading));
        if let Ok(record) = &heard {
            if *record == Record::with(b'N', b'1') || *record == Record::with(b'N', b'2') {
                return self.failed(now, Told::Rejected);
            }
        }
        let count = self.count;
        self.count = 0;
        self.number = 1 - self.number;
        quiet(match heard {
            Ok(record) if self.permits(record.type_byte) => {
                self.note_key(&record, now);
                Told::Answered(record, count)
            }
            other => Told::OtherKind(other, count),
        })
    }

    /// An A that answers t on line 3 says where the driver's key is; T0 goes on (001 8.6, 8.8).
    fn note_key(&mut self, answer: &Record, now: u32) {
        let asked = self.record.type_byte == b't' || is_on("key taken from every A");
        if self.line != 3 || !asked || answer.type_byte != b'A' {
            return;
        }
        let operation = *answer == Record::with(b'A', b'X');
        if is_on("T0 restarted by the key") && operation != self.operation {
            self.t0 = now;
        }
        self.operation = operation;
    }

    /// The types permitted as an answer to what was sent.
    fn permits(&self, type_byte: u8) -> bool {
        let data = data_type(self.line) == Some(type_byte);
        match self.record.type_byte {
            b'r' => data || type_byte == b'N',
            b't' => data || b"AN".contains(&type_byte),
            _ => b"AN".contains(&type_byte),
        }
    }
}
