//! The built listing program against the independent listing, on inputs with fixed seeds:
//! rules P1 to P5, with C1 to C9 and R1 to R15.

mod running;

use host::making::captures::{capture, noise};
use host::making::damage::DAMAGES;
use host::making::exchange::exchange;
use host::making::random::Random;
use host::making::telegrams::{any_form, of_form};
use host::second::framing::{framed, seal};
use host::second::reading::{forms_on, FORMS};
use running::{on_line, LISTING, SAMPLE};

/// The number of lines of a listing that hold some words.
fn lines_with(listing: &str, words: &str) -> usize {
    let words = format!(" {words} ");
    listing.lines().filter(|line| line.contains(&words)).count()
}

#[test]
fn the_sample_of_document_01() {
    let sample = "1 0 ok A 0\n2 10 no 6 7\n";
    assert_eq!(LISTING.compare("sample", SAMPLE), sample);
    assert_eq!(
        LISTING.compare_from_file("sample from a file", SAMPLE),
        sample
    );
}

/// Captures at random, whole.
#[test]
fn the_program_for_x86_64() {
    LISTING.compare("sample for x86-64", SAMPLE);
    let mut random = Random::seeded(86);
    for round in 0..30 {
        let line = 1 + (round % 3) as u8;
        let bytes = capture(&mut random, line, 20_000);
        LISTING.compare(&format!("x86-64, round {round}"), &bytes);
    }
}

#[test]
fn empty_input_and_every_first_byte() {
    assert_eq!(LISTING.compare("empty", b""), "no 15 0\n");
    assert_eq!(LISTING.compare_from_file("empty file", b""), "no 15 0\n");
    for first in 0..=255u8 {
        let mut input = vec![first];
        let name = format!("first byte {first}");
        let alone = LISTING.compare(&name, &input);
        input.extend(&SAMPLE[1..]);
        let sample = LISTING.compare(&name, &input);
        if !b"123".contains(&first) {
            assert_eq!(
                (alone.as_str(), sample.as_str()),
                ("no 15 0\n", "no 15 0\n")
            );
        } else {
            assert_eq!(alone, "");
            assert_eq!(sample.lines().count(), 2);
        }
    }
    let bad = [b"x", capture(&mut Random::seeded(4), 1, 300_000).as_slice()].concat();
    assert_eq!(LISTING.compare("first byte bad, long", &bad), "no 15 0\n");
}

#[test]
fn line_feeds_and_returns_alone() {
    assert_eq!(LISTING.compare("LF CR", b"1\n\r"), "1 0 no 1 0\n");
    assert_eq!(
        LISTING.compare("LF behind the digit", b"1\n\n08N0N19B\r"),
        "1 1 ok N 0\n"
    );
    for bytes in [
        "\n", "\r", "\r\n", "\n\n", "\r\r", "\n\r\r", "\n\n\r", "\r\n\r\n",
    ] {
        LISTING.compare("LF and CR", &on_line(2, &[bytes.as_bytes()]));
    }
    let many = "\n\r".repeat(100_000);
    let listing = LISTING.compare("many LF CR", &on_line(3, &[many.as_bytes()]));
    assert!(listing.ends_with("\n100000 199998 no 1 0\n"));
}

#[test]
fn every_form_on_every_line() {
    let mut random = Random::seeded(5);
    for line in 1..=3 {
        let mut input = on_line(line, &[]);
        for form in FORMS {
            for number in [b'0', b'1'].repeat(100) {
                input.extend(of_form(&mut random, form, number));
            }
        }
        let listing = LISTING.compare("every form", &input);
        for form in forms_on(line) {
            for number in 0..=1 {
                let words = format!(" ok {} {number}", char::from(form.type_byte));
                let lines = listing.lines().filter(|line| line.ends_with(&words));
                assert!(lines.count() >= 100, "line {line}:{words}");
            }
        }
        assert!(lines_with(&listing, "no 8") >= 200);
    }
}

#[test]
fn each_refusal_that_a_cut_telegram_can_have() {
    let numbers = [1, 4, 6, 7, 8, 9, 10, 11];
    let lines = "0 no 1 0,10 no 4 1,20 no 6 7,30 no 7 4,40 no 8 3,50 no 9 6,60 no 10 5,70 no 11 5";
    for line in 1..=3 {
        let count = b"\n09N0N19A\r";
        let sum = b"\n08N0N19C\r";
        let input = on_line(
            line,
            &[
                b"\n08N0N1B\r ",
                count,
                sum,
                &framed(b'N', b'2', b"N1"),
                &framed(b'E', b'0', b"N1"),
                &framed(b'N', b'0', b"N^"),
                &framed(b'N', b'0', b"A1"),
                &framed(b'N', b'0', b"N3"),
            ],
        );
        let listing = LISTING.compare("each refusal", &input);
        for number in numbers {
            assert_eq!(lines_with(&listing, &format!("no {number}")), 1);
        }
        let wanted: Vec<&str> = lines.split(',').collect();
        let behind_ordinals = listing.lines().filter_map(|line| line.split_once(' '));
        assert!(behind_ordinals.map(|(_, behind)| behind).eq(wanted));
    }
}

#[test]
fn every_byte_at_every_index_of_every_form() {
    let mut random = Random::seeded(6);
    for line in 1..=3 {
        let mut input = on_line(line, &[]);
        for form in forms_on(line) {
            let whole = of_form(&mut random, form, b'1');
            for index in 0..whole.len() {
                for byte in 0..=255 {
                    let mut changed = whole.clone();
                    changed[index] = byte;
                    input.extend(&changed);
                    seal(&mut changed);
                    input.extend(changed);
                }
            }
        }
        let listing = LISTING.compare("every byte", &input);
        for number in [1, 4, 6, 7, 8, 9, 10, 11] {
            assert!(lines_with(&listing, &format!("no {number}")) > 0);
        }
        for number in [2, 3, 5] {
            assert_eq!(lines_with(&listing, &format!("no {number}")), 0);
        }
    }
}

#[test]
fn every_pair_of_checksum_and_of_count_characters() {
    for index in [1, 7] {
        let mut input = on_line(3, &[]);
        for pair in 0..=u16::MAX {
            let mut telegram = framed(b'A', b'0', b"AY");
            telegram[index..index + 2].copy_from_slice(&pair.to_be_bytes());
            if index == 1 {
                seal(&mut telegram);
            }
            input.extend(telegram);
        }
        let listing = LISTING.compare("every pair", &input);
        assert_eq!(lines_with(&listing, "ok A"), 1);
    }
}

#[test]
fn every_length_of_the_data_field() {
    for line in 1..=3 {
        let mut input = on_line(line, &[]);
        for length in 0..=70 {
            for type_byte in b"AN1rtc5oGFnBKO" {
                input.extend(framed(*type_byte, b'0', &vec![b'A'; length]));
            }
        }
        LISTING.compare("every length", &input);
    }
}

#[test]
fn each_damage_on_each_line() {
    let mut random = Random::seeded(7);
    for (name, damage) in DAMAGES {
        for line in 1..=3 {
            let mut input = on_line(line, &[]);
            for round in 0..2000 {
                let mut telegram = any_form(&mut random, line);
                damage(&mut random, &mut telegram);
                if round % 2 == 1 {
                    let (_, second) = DAMAGES[random.below(DAMAGES.len())];
                    second(&mut random, &mut telegram);
                }
                input.extend(telegram);
            }
            LISTING.compare(name, &input);
        }
    }
}

fn random_captures(line: u8) {
    let mut random = Random::seeded(80 + u64::from(line));
    for _ in 0..1000 {
        let length = random.below(4001);
        let input = capture(&mut random, line, length);
        LISTING.compare(&format!("random captures of line {line}"), &input);
    }
}

#[test]
fn random_captures_of_line_1() {
    random_captures(1);
}

#[test]
fn random_captures_of_line_2() {
    random_captures(2);
}

#[test]
fn random_captures_of_line_3() {
    random_captures(3);
}

#[test]
fn random_noise_and_exchanges() {
    let mut random = Random::seeded(9);
    for round in 0..300 {
        let line = 1 + (round % 3) as u8;
        let length = random.below(4001);
        LISTING.compare("noise", &on_line(line, &[&noise(&mut random, length)]));
        LISTING.compare(
            "exchange",
            &on_line(line, &[&exchange(&mut random, line, 100)]),
        );
    }
}
