//! The fast plain version against the second version, on the samples and on inputs with fixed seeds: what it lists
//! (P1 to P5), reads (R1 to R11, R15), writes (W4 to W6) and cuts (C2 to C8).

mod running;

use host::fast::cutting::{next_telegram, Gatherer};
use host::fast::listing::{list, list_slice};
use host::fast::{reading, writing, Record as Fast, Refusal};
use host::making::captures::{capture, noise};
use host::making::damage::damaged;
use host::making::random::Random;
use host::making::telegrams::{any_form, of_form};
use host::second::cutting::{telegrams, Cutter, Heard};
use host::second::framing::{framed, seal};
use host::second::listing::listing;
use host::second::reading::{forms_on, read, FORMS};
use host::second::records::Record;
use running::{on_line, SAMPLE};
use std::io::Read;
use std::process::Command;

/// The bytes that a capture or a log of the samples has.
fn sample(name: &str) -> Vec<u8> {
    let path = format!("{}/../samples/{name}", env!("CARGO_MANIFEST_DIR"));
    std::fs::read(path).expect(name)
}

/// An input that comes in pieces of random sizes, at most this many bytes at a time.
struct Pieces<'a>(&'a [u8], &'a mut Random, usize);

impl Read for Pieces<'_> {
    fn read(&mut self, room: &mut [u8]) -> std::io::Result<usize> {
        let most = self.1.from_to(1, self.2).min(room.len());
        self.0.read(&mut room[..most])
    }
}

/// Compares what the fast version prints with what the second version prints: from a slice, read at once, and in
/// pieces.
fn compare(input: &[u8], random: &mut Random) -> String {
    let wanted = listing(input);
    let most = [1, 7, 66, 1000, 100_000][random.below(5)];
    let mut printed = [Vec::new(), Vec::new(), Vec::new()];
    list_slice(input, &mut printed[0]).expect("memory takes all");
    list(&mut &*input, &mut printed[1]).expect("memory takes all");
    list(&mut Pieces(input, random, most), &mut printed[2]).expect("memory takes all");
    for printed in printed {
        let printed = String::from_utf8(printed).expect("it prints text");
        let (mut got, mut want) = (printed.lines(), wanted.lines());
        while let (Some(got), Some(want)) = (got.next(), want.next()) {
            assert_eq!(got, want, "a listing of {} bytes differs", input.len());
        }
        assert_eq!(printed.len(), wanted.len(), "a listing differs in length");
    }
    wanted
}

#[test]
fn the_samples() {
    let mut random = Random::seeded(1);
    assert_eq!(compare(SAMPLE, &mut random), "1 0 ok A 0\n2 10 no 6 7\n");
    for name in ["line1.cap", "line2.cap", "line3.cap", "noise.cap"] {
        let input = sample(name);
        let lines = compare(&input, &mut random);
        assert!(lines.lines().count() > 1, "{name}");
        for line in 1..=3 {
            compare(&on_line(line, &[&input[1..]]), &mut random);
        }
    }
    compare(&sample("school.log"), &mut random);
}

#[test]
fn every_first_byte() {
    let mut random = Random::seeded(2);
    assert_eq!(compare(b"", &mut random), "no 15 0\n");
    for first in 0..=255 {
        compare(&[first], &mut random);
        compare(&[&[first], &SAMPLE[1..]].concat(), &mut random);
    }
}

#[test]
fn captures_and_noise() {
    let mut random = Random::seeded(3);
    for round in 0..4500 {
        let line = 1 + (round % 3) as u8;
        let length = random.below(2001);
        compare(&capture(&mut random, line, length), &mut random);
        let noise = noise(&mut random, length);
        compare(&on_line(line, &[&noise]), &mut random);
    }
    // longer than a piece, with lines of every length and pieces that end in each part of a telegram
    for line in 1..=3 {
        let long = capture(&mut random, line, 500_000);
        assert!(compare(&long, &mut random).lines().count() > 10_000);
        for skipped in 0..70 {
            compare(&on_line(line, &[&long[1 + skipped..90_000]]), &mut random);
        }
        let quiet = noise_without_ends(&mut random, 200_000);
        compare(&on_line(line, &[&quiet, &long[1..], &quiet]), &mut random);
    }
}

/// Bytes that neither begin nor end a telegram.
fn noise_without_ends(random: &mut Random, length: usize) -> Vec<u8> {
    (0..length).map(|_| random.byte() | 0x80).collect()
}

/// Every length of a telegram up to 70, at every place of a word of eight bytes.
#[test]
fn every_length() {
    let mut random = Random::seeded(4);
    let mut input = on_line(3, &[]);
    for length in 0..=70 {
        for shift in 0..8 {
            input.extend(vec![b'.'; shift]);
            input.extend(framed(b'A', b'0', &vec![b'A'; length]));
            input.extend([b"\n".as_slice(), &vec![b'A'; length], b"\r"].concat());
        }
    }
    compare(&input, &mut random);
}

/// Compares two readings of a frame.
fn compare_reading(line: u8, frame: &[u8]) {
    let wanted = read(line, frame)
        .map(|reading| (padded(&Record::read(line, &reading)), reading.number))
        .map_err(|(number, place)| Refusal {
            number,
            place: place as u8,
        });
    let got = reading::read(line, frame);
    let text = frame.escape_ascii();
    assert_eq!(got, wanted, "reading differs on line {line}, b\"{text}\"");
    let check = got.map(|(record, number)| (record.type_byte, number));
    assert_eq!(reading::check(line, frame), check, "line {line}, {text}");
}

/// The record with ten values.
fn padded(record: &Record) -> Fast {
    let mut values = [0; 10];
    values[..record.values.len()].copy_from_slice(&record.values);
    let type_byte = record.type_byte;
    Fast { type_byte, values }
}

#[test]
fn frames_of_every_kind() {
    let mut random = Random::seeded(5);
    for round in 0..60_000 {
        let line = 1 + (round % 3) as u8;
        let frame = match random.below(8) {
            0..=3 => damaged(&mut random, line),
            4..=6 => any_form(&mut random, line),
            _ => {
                let length = random.below(80);
                noise(&mut random, length)
            }
        };
        compare_reading(line, &frame);
        compare_reading(round as u8, &frame);
    }
}

/// A telegram of each form with every byte at every index, with the old checksum and with the right one.
#[test]
fn every_byte_at_every_index() {
    let mut random = Random::seeded(6);
    for (line, form) in (1..=3).flat_map(|line| FORMS.iter().map(move |form| (line, form))) {
        let whole = of_form(&mut random, form, b'1');
        for index in 0..whole.len() {
            for byte in 0..=255 {
                let mut changed = whole.clone();
                changed[index] = byte;
                compare_reading(line, &changed);
                seal(&mut changed);
                compare_reading(line, &changed);
            }
        }
    }
}

/// Compares two writings of a record, with and without room for it.
fn compare_writing(line: u8, record: &Record, number: u8, room: usize) {
    let known = (1..=3).contains(&line);
    let on_line = known && forms_on(line).any(|form| form.type_byte == record.type_byte);
    let telegram = record.telegram(line, number.min(1));
    let wanted = match telegram.filter(|_| number <= 1) {
        _ if !known => Err(15),
        _ if !on_line => Err(12),
        None => Err(13),
        Some(telegram) if telegram.len() > room => Err(14),
        Some(telegram) => Ok(telegram),
    };
    let mut out = vec![0xAA; room];
    let got = writing::write(line, &padded(record), number, &mut out);
    let untouched = vec![0xAA; room];
    let (length, bytes) = match &wanted {
        Ok(telegram) => (Ok(telegram.len()), telegram.as_slice()),
        Err(number) => (
            Err(Refusal {
                number: *number,
                place: 0,
            }),
            [].as_slice(),
        ),
    };
    assert_eq!(got, length, "writing differs on line {line}, {record:?}");
    let behind = &untouched[bytes.len()..];
    assert_eq!(out, [bytes, behind].concat(), "line {line}, {record:?}");
}

#[test]
fn records_of_every_type() {
    let mut random = Random::seeded(7);
    for round in 0..40_000 {
        let line = 1 + (round % 3) as u8;
        let frame = any_form(&mut random, line);
        let reading = read(line, &frame).expect("a made telegram");
        let mut record = Record::read(line, &reading);
        compare_writing(line, &record, reading.number, 66);
        let place = random.below(record.values.len());
        let wide = random.draw() as u32;
        record.values[place] = match random.below(6) {
            0 => random.below(256) as u32,
            1 => [
                99, 100, 999, 1000, 7999, 8000, 9999, 10_000, 999_999, 1_000_000,
            ][random.below(10)],
            2 => wide & 0xFFFF,
            3 => wide,
            _ => record.values[place],
        };
        let number = [0, 1, 2, 255][random.below(4)];
        let room = random.below(67);
        compare_writing(random.below(5) as u8, &record, number, room);
        compare_writing(line, &record, number, room);
    }
}

#[test]
fn telegrams_of_a_stream() {
    let mut random = Random::seeded(8);
    for round in 0..3000 {
        let length = random.below(1500);
        let bytes = match round % 2 {
            0 => noise(&mut random, length),
            _ => capture(&mut random, 1 + (round % 3) as u8, length),
        };
        let text = bytes.escape_ascii();
        let wanted = telegrams(&bytes);
        let (mut from, mut found) = (0, Vec::new());
        while let Some((start, telegram)) = next_telegram(&bytes, from) {
            from = start + telegram.len();
            found.push((start, telegram));
        }
        assert_eq!(found, wanted, "searching differs in b\"{text}\"");
        let (mut cutter, mut gatherer) = (Cutter::default(), Gatherer::start());
        for byte in &bytes {
            if random.one_in(100) {
                cutter.hear(Heard::Hit);
                gatherer.hit();
            }
            let wanted = cutter.hear(Heard::Byte(*byte));
            let got = gatherer.byte(*byte);
            assert_eq!(got, wanted.as_deref(), "step differs in b\"{text}\"");
        }
    }
}

/// Two faults of the second version, switched on for other runs of these tests, are found.
#[test]
fn a_fault_is_found() {
    for (test, fault, kind) in [
        ("captures_and_noise", "lower case taken", "a listing of"),
        (
            "frames_of_every_kind",
            "lower case taken",
            "reading differs",
        ),
        (
            "telegrams_of_a_stream",
            "telegram goes on over LF",
            "step differs",
        ),
    ] {
        let mut tests = Command::new(std::env::current_exe().expect("this program"));
        tests.args(["--exact", test]).env("HOST_FAULT", fault);
        let output = tests.output().expect("it runs");
        let said = String::from_utf8_lossy(&output.stdout);
        assert!(!output.status.success(), "{fault} is found by {test}");
        assert!(said.contains(kind), "{fault} is a difference: {said}");
    }
}
