//! The numbers of `include/in656.h` found by using the library.

// Each test file uses a part of this module.
#![allow(dead_code)]

mod ends;

use host::comparing::linked::library;
use host::second::blocks::{record_block, GATHERER};
use host::second::face::{Answer, Call, Face};
use host::second::framing::framed;
use host::second::records::Record;
use std::collections::BTreeMap;
use std::io::Write;
use std::path::Path;

pub type Numbers = BTreeMap<String, u64>;

/// The lengths that the functions without arguments give behind the result's, by the header's names.
pub const LENGTHS: [&str; 5] = [
    "LONGEST",
    "RECORD_LENGTH",
    "GATHERER_LENGTH",
    "DESK_LENGTH",
    "MASTER_LENGTH",
];

/// The header's text.
pub fn header() -> String {
    let path = Path::new(env!("CARGO_MANIFEST_DIR")).join("../include/in656.h");
    std::fs::read_to_string(path).expect("the header is read")
}

/// The numbers that the header defines, by their names.
pub fn defined() -> Numbers {
    let number = |line: &str| {
        let mut words = line.strip_prefix("#define IN656_")?.split_whitespace();
        let (name, number) = (words.next()?, words.next()?);
        Some((name.to_string(), number.strip_suffix('u')?.parse().ok()?))
    };
    header().lines().filter_map(number).collect()
}

/// The library, or a word on why a test is skipped.
pub fn linked(test: &str) -> Option<&'static dyn Face> {
    let skipped = |why: &&str| {
        let _ = writeln!(std::io::stderr(), "{test}: skipped, {why}");
    };
    library().inspect_err(skipped).ok()
}

/// The numbers found by use.
pub struct Found<'a> {
    face: &'a dyn Face,
    pub numbers: Numbers,
}

/// A telegram with number 0 or 1.
fn telegram(type_byte: u8, number: u8, field: &[u8]) -> Vec<u8> {
    framed(type_byte, b'0' + number, field)
}

/// A frame with one byte changed.
fn changed(mut frame: Vec<u8>, index: usize, byte: u8) -> Vec<u8> {
    frame[index] = byte;
    frame
}

const K: &[u8] = b"FC12D34C56M:AV:BCP7123";

fn k() -> Record {
    Record {
        type_byte: b'K',
        values: vec![12, 34, 56, 65, 66 * 256 + 67, 7123],
    }
}

/// The index of bytes in a block.
fn index(block: &[u8], bytes: &[u8]) -> u64 {
    let mut windows = block.windows(bytes.len());
    windows
        .position(|window| window == bytes)
        .expect("they stand there") as u64
}

impl Found<'_> {
    pub fn new(face: &dyn Face) -> Found<'_> {
        Found {
            face,
            numbers: Numbers::new(),
        }
    }

    /// A number is found; found again, it is the same.
    fn is(&mut self, name: &str, number: impl Into<u64>) {
        let number = number.into();
        let before = self.numbers.insert(name.into(), number);
        assert!(before.is_none_or(|before| before == number), "{name}");
    }

    fn read(&self, line: u32, frame: &[u8], record: &mut [u8]) -> Answer {
        self.face
            .call(Call::Read(line, frame), &mut [], &mut [], record)
    }

    fn write(&self, line: u32, record: &Record, number: u32, room: usize) -> Answer {
        let block = record_block(record);
        let call = Call::Write(line, &block, number);
        self.face.call(call, &mut [], &mut vec![0; room], &mut [])
    }

    pub fn lines(&mut self) {
        let telegrams = [
            ("LINE_ATC_TC", telegram(b'B', 0, b"L125%090H120R88")),
            ("LINE_ATC_MSR3", telegram(b'5', 0, b"U-")),
            ("LINE_MSR3_TC", telegram(b'K', 0, K)),
        ];
        for (name, frame) in telegrams {
            let reads = |line: &u32| self.read(*line, &frame, &mut [0; 64]).refusal == 0;
            let lines: Vec<u32> = (0..300).filter(reads).collect();
            assert_eq!(lines.len(), 1, "{name}");
            self.is(name, lines[0]);
        }
    }

    pub fn lengths(&mut self) {
        let [result, lengths @ ..] = self.face.lengths();
        assert_eq!(result, std::mem::size_of::<Answer>());
        for (name, length) in LENGTHS.into_iter().zip(lengths) {
            self.is(name, length as u64);
        }
    }

    /// Where things stand in a record block and in a gatherer.
    pub fn places(&mut self) {
        let mut block = [0; 64];
        let frame = telegram(b'1', 0, b"FC12D34C56M:AV:BCP7123W1X6YVZ7");
        assert_eq!(self.read(2, &frame, &mut block).refusal, 0);
        let values_at = index(&block, &[0, 0, 0, 12]);
        let values = (index(&block, &[0, 0, 0, b'7']) - values_at) / 4 + 1;
        let text_at = values_at + 4 * values;
        self.is("RECORD_TYPE_AT", index(&block, b"1"));
        self.is("RECORD_VALUES_AT", values_at);
        self.is("RECORD_VALUES", values);
        self.is("RECORD_TEXT_AT", text_at);
        self.is("RECORD_TEXT", block.len() as u64 - text_at);
        let mut state = [0; GATHERER];
        let frame = telegram(b'A', 0, b"AA");
        let mut hear = |call| self.face.call(call, &mut state, &mut [], &mut []);
        hear(Call::GathererStart);
        let last = frame
            .iter()
            .map(|byte| hear(Call::GathererByte(*byte)))
            .last();
        let last = last.expect("bytes");
        assert_eq!(last.written, frame.len() as u64);
        self.is("TELEGRAM", last.outcome);
        let found = Call::Next(&frame, 0);
        let found = self.face.call(found, &mut [], &mut [], &mut []);
        self.is("TELEGRAM", found.outcome);
        self.is("GATHERER_TELEGRAM_AT", index(&state, &frame));
    }

    /// Who sends a type, as its packets say.
    pub fn packets(&mut self) {
        let types = [
            ("BY_MASTER", 1, b'c'),
            ("BY_SLAVE", 1, b'B'),
            ("BY_MASTER", 3, b'O'),
            ("BY_SLAVE", 3, b'K'),
        ];
        for (name, line, type_byte) in types {
            let call = Call::Packet(line, u32::from(type_byte), 0, 0);
            let answer = self.face.call(call, &mut [], &mut [], &mut []);
            self.is(name, answer.outcome);
        }
    }

    /// The three parts of the version.
    pub fn version(&mut self) {
        let version = self.face.version();
        let [high, major, minor, patch] = version.to_be_bytes();
        self.is("VERSION_MAJOR", u16::from_be_bytes([high, major]));
        self.is("VERSION_MINOR", minor);
        self.is("VERSION_PATCH", patch);
        assert_eq!(self.face.same_edition(version), 1);
    }

    /// The room for any words is enough for all of them; the header may round it up.
    pub fn words(&mut self, room: u64) {
        let said = |call| {
            let mut out = vec![0; room as usize];
            let answer = self.face.call(call, &mut [], &mut out, &mut []);
            assert_ne!(answer.refusal, 14, "{call:?} needs more than {room} bytes");
            answer.refusal == 0
        };
        let pairs = || (0..20).flat_map(|one| (0..20).map(move |two| (one, two)));
        let refusals = (0..100).filter(|refusal| said(Call::RefusalWords(*refusal)));
        assert_eq!(refusals.collect::<Vec<_>>(), (0..=20).collect::<Vec<_>>());
        let desk = pairs().filter(|(one, two)| said(Call::DeskWords(*one, *two)));
        assert_eq!(desk.count(), 11);
        let master = pairs().filter(|(one, two)| said(Call::MasterWords(*one, *two)));
        assert_eq!(master.count(), 12);
        self.is("WORDS_LENGTH", room);
    }

    /// The refusals of reading and writing, each with its place.
    pub fn refusals(&mut self) {
        let good = telegram(b'A', 0, b"AA");
        let frames = [
            ("OK", 0, good.clone()),
            ("TOO_SHORT", 0, good[..9].to_vec()),
            ("TOO_LONG", 0, telegram(b'A', 0, &[b'A'; 59])),
            ("NO_LF", 0, changed(good.clone(), 0, b'0')),
            ("WRONG_COUNT", 1, changed(good.clone(), 2, b'9')),
            ("NO_CR", 9, changed(good.clone(), 9, b'0')),
            ("WRONG_SUM", 7, changed(good.clone(), 7, b'0')),
            ("WRONG_NUMBER", 4, telegram(b'A', 2, b"AA")),
            ("UNKNOWN_TYPE", 3, telegram(b'K', 0, K)),
            ("OUTSIDE_SET", 6, telegram(b'A', 0, b"A^")),
            ("WRONG_FORM", 5, telegram(b'A', 0, b"BA")),
            ("WRONG_VALUE", 5, telegram(b'N', 0, b"N3")),
        ];
        for (name, place, frame) in frames {
            let answer = self.read(1, &frame, &mut [0; 64]);
            assert_eq!(answer.place, place, "{name}");
            self.is(name, answer.refusal);
        }
        self.is("NO_ROOM", self.read(1, &good, &mut [0; 63]).refusal);
        self.is("WRONG_STATE", self.read(4, &good, &mut [0; 64]).refusal);
        self.is("WRONG_RECORD", self.write(1, &k(), 0, 66).refusal);
        self.is("OUT_OF_RANGE", self.write(3, &k(), 2, 66).refusal);
        self.is("NO_ROOM", self.write(3, &k(), 1, 29).refusal);
        self.is("OK", self.write(3, &k(), 1, 30).refusal);
    }

    /// The marks of a log, its refusals, and the room that its longest record needs.
    pub fn logs(&mut self) {
        let read = |log: &[u8]| {
            let call = Call::LogRead(log, 0);
            self.face.call(call, &mut [], &mut [], &mut [])
        };
        let write = |bytes: &[u8], room| {
            let call = Call::LogWrite(1, 5, bytes);
            self.face.call(call, &mut [], &mut vec![0; room], &mut [])
        };
        let longest = (0..200).find(|room| write(&[0; 66], *room).refusal == 0);
        let numbers = [
            ("LOG_END", read(b"").outcome),
            ("LOG_MASTER", read(b"M>\0\0\0\x05\0").outcome),
            ("LOG_SLAVE", read(b"S>\0\0\0\x05\0").outcome),
            ("LOG_HIT", read(b"H!\0\0\0\x05\0").outcome),
            ("UNKNOWN_MARK", read(b"M!\0\0\0\x05\0").refusal),
            ("WRONG_LENGTH", read(b"H!\0\0\0\x05\x01\0").refusal),
            ("CUT_OFF", read(b"M>\0\0\0\x05\x01").refusal),
            ("WRONG_LENGTH", write(&[0; 67], 0).refusal),
            ("NO_ROOM", write(&[], 6).refusal),
            ("LOG_LONGEST", longest.expect("some room is enough") as u32),
        ];
        for (name, number) in numbers {
            self.is(name, number);
        }
    }
}
