//! The built program `replay` against the second version, on logs with fixed seeds: docs/REPLAY.md.

mod running;

use host::comparing::linked::library;
use host::line::ends::Ends;
use host::line::faced::BothEnds;
use host::making::logs::{log, log_of, small, spoil};
use host::making::random::Random;
use host::programs::scenes::Scenes;
use host::second::desk::ROOM;
use host::second::face::Face;
use host::second::framing::framed;
use host::second::logs::{entries, Entry, Mark, HEAD};
use host::second::replay::{replay, replayed, told};
use host::second::words::ticked;
use host::second::Second;
use running::{on_line, REPLAY};

/// The last line of a text.
fn last(text: &str) -> &str {
    text.lines().last().unwrap_or("")
}

/// The rows of the papers' rules: each mark, each thing a fresh desk can do, and times at T1's limit.
#[test]
fn each_row_of_a_log() {
    let g = framed(b'G', b'0', b"E288");
    let records: &[(Mark, u32, &[u8], &str)] = &[
        (Mark::Hit, 7, b"", "1 0 7 done"),
        (Mark::Master, 5, b"", "2 7 5 silent, no 1 0"),
        (
            Mark::Master,
            10,
            &g,
            "3 14 10 handled, panel G 288, 10 bytes <08A0AAA5>",
        ),
        (Mark::Slave, 99_999, b"\n08A0AAA5\r", ""),
        (Mark::Master, 20, &g, "5 50 20 repeat, 10 bytes <08A0AAA5>"),
        (
            Mark::Master,
            30,
            b"\n08t1Bt3E\r",
            "6 69 30 fault, 10 bytes <08N1N19A>",
        ),
        (
            Mark::Master,
            30,
            b"\n08t1Bt3D\r",
            "7 86 30 handled, t 116, key A, 10 bytes <08A1AAA4>",
        ),
        (
            Mark::Master,
            31,
            b"\n08r0BB72\r",
            "8 103 31 handled, r 66, nothing set, 10 bytes <08N0NA8B>",
        ),
        (
            Mark::Master,
            32,
            &framed(b'K', b'1', b"AA"),
            "9 120 32 handled, contents no 8 3, 10 bytes <08N1NA8A>",
        ),
        (
            Mark::Master,
            33,
            &framed(b'N', b'0', b"N1"),
            "10 137 33 handled, N 49, not the master's, 10 bytes <08N0NA8B>",
        ),
        (Mark::Hit, 28_032, b"", "11 154 28032 done"),
        (Mark::Hit, 28_033, b"", "12 161 28033 line noted lost"),
        (
            Mark::Master,
            28_034,
            &framed(b'c', b'0', b"mS"),
            "13 168 28034 handled, panel c 83, 10 bytes <08A0AAA5>",
        ),
        // a time that goes back is as if T1 had run out
        (
            Mark::Master,
            28_033,
            b"x",
            "14 185 28033 line noted lost, silent, no 1 0",
        ),
    ];
    let given: Vec<_> = records.iter().map(|(m, t, b, _)| (*m, *t, *b)).collect();
    let rows = records
        .iter()
        .map(|record| record.3)
        .filter(|row| !row.is_empty());
    let wanted: String = rows.map(|row| format!("{row}\n")).collect();
    let input = on_line(1, &[&log_of(&given)]);
    assert_eq!(replay(&input), wanted);
    assert_eq!(REPLAY.compare("each row", &input), wanted);
}

/// No input, a digit alone and other first bytes.
#[test]
fn the_first_byte() {
    assert_eq!(REPLAY.compare("empty", b""), "no 15 0\n");
    for first in *b"\0\n\r .0123457ABM\x7F\x80\xFF" {
        let known = b"123".contains(&first);
        let alone = REPLAY.compare("first byte alone", &[first]);
        assert_eq!(alone, if known { "" } else { "no 15 0\n" }, "{first}");
        let behind = [&[first], small().as_slice()].concat();
        let rows = REPLAY.compare("first byte", &behind).lines().count();
        assert_eq!(rows, if known { 6 } else { 1 }, "{first}");
    }
    let bad = [b"x", small().repeat(10_000).as_slice()].concat();
    assert_eq!(REPLAY.compare("first byte bad, long", &bad), "no 15 0\n");
}

/// A small log cut at every byte: 20, unless a record ends there.
#[test]
fn a_log_cut_at_every_byte() {
    let log = small();
    let mut whole = 0;
    for length in 0..=log.len() {
        let rows = REPLAY.compare("cut", &on_line(1, &[&log[..length]]));
        whole += usize::from(!last(&rows).starts_with("no 20 "));
    }
    assert_eq!(
        whole, 8,
        "it is whole in front of each record and at its end"
    );
}

/// Each byte of a small log replaced, and each length by 66; `face.rs` tries every value of each.
#[test]
fn bytes_replaced() {
    let log = small();
    let mut changes: Vec<_> = (0..log.len())
        .map(|index| (index, log[index] ^ 1))
        .collect();
    changes.extend(
        entries(&log)
            .0
            .iter()
            .map(|(from, _)| (from + HEAD - 1, 66)),
    );
    let mut ended = [0; 21];
    for (index, value) in changes {
        let mut changed = log.clone();
        changed[index] = value;
        let rows = REPLAY.compare("a byte replaced", &on_line(1, &[&changed]));
        if let Some(rest) = last(&rows).strip_prefix("no ") {
            let refusal = rest.split(' ').next().and_then(|word| word.parse().ok());
            ended[refusal.unwrap_or(0)] += 1;
        }
    }
    for refusal in [18, 19, 20] {
        assert!(ended[refusal] > 1, "{refusal}: {ended:?}");
    }
}

/// A good record and then a bad one: the refusal, with the offset of its record.
#[test]
fn what_ends_a_log() {
    let good = log_of(&[(Mark::Master, 1, b"x")]);
    let ends: [(&[u8], u8); 12] = [
        (b"x", 20),
        (b"M", 20),
        (b"M!", 18),
        (b"M>", 20),
        (b"M>\0\0\0\0", 20),
        (b"x>\0\0\0\0", 18),
        (b"M>\0\0\0\0\x43", 19),
        (b"S>\0\0\0\0\xFF", 19),
        (b"H!\0\0\0\0\x01", 19),
        (b"H!\0\0\0\0\x01x", 19),
        (b"M>\0\0\0\0\x42", 20),
        (b"S>\0\0\0\0\x01", 20),
    ];
    for (end, refusal) in ends {
        let rows = REPLAY.compare("an end", &on_line(2, &[&good, end]));
        assert_eq!(rows, format!("1 0 1 silent, no 1 0\nno {refusal} 8\n"));
    }
}

/// Logs of every kind, whole and spoiled, and long enough for many rows.
#[test]
fn random_logs() {
    let mut random = Random::seeded(20);
    let mut texts = String::new();
    for round in 0..60 {
        let line = 1 + (round % 3) as u8;
        let records = [20, 300, 3_000][random.below(3)];
        let mut bytes = log(&mut random, line, records);
        if round % 2 == 1 {
            spoil(&mut random, &mut bytes);
        }
        let name = format!("random log {round}");
        texts.push_str(&REPLAY.compare(&name, &on_line(line, &[&bytes])));
    }
    for what in [
        "silent, no 1 0",
        "silent, no 4 1",
        "fault, 10 bytes <08N",
        "repeat, 10 bytes <08A",
        ", key A, ",
        "handled, panel ",
        "handled, contents no 11 ",
        ", not the master's, ",
        "handled, r 66, nothing set, ",
        "line noted lost, handled, ",
        "line noted lost, silent, ",
        "line noted lost, fault, ",
        " line noted lost\n",
        " done\n",
        "\nno 18 ",
        "\nno 20 ",
    ] {
        assert!(texts.contains(what), "{what} does not occur");
    }
    for unnamed in ["key ", "not the master's", "nothing set"] {
        let row = format!("handled, {unnamed}");
        assert!(!texts.contains(&row), "{row} does not name its record");
    }
}

/// Logs at random, whole and spoiled.
#[test]
fn the_program_for_x86_64() {
    let mut random = Random::seeded(86);
    for round in 0..30 {
        let line = 1 + (round % 3) as u8;
        let mut bytes = log(&mut random, line, 300);
        if round % 2 == 1 {
            spoil(&mut random, &mut bytes);
        }
        let input = on_line(line, &[&bytes]);
        REPLAY.compare(&format!("x86-64, round {round}"), &input);
    }
}

/// What the program `replay` prints for an input, by a desk that gets the calls by hand, record by record.
fn by_hand(ends: &mut impl Ends, input: &[u8]) -> String {
    replayed(input, |line| {
        ends.start(line, 0);
        move |entry: &Entry| match entry.mark {
            Mark::Slave => None,
            Mark::Hit => Some(ticked(ends.desk_tick(entry.time))),
            Mark::Master => {
                let answer = ends.desk_hear(entry.time, ROOM, entry.bytes);
                Some(told(line, entry.bytes, answer))
            }
        }
    })
}

/// The rows are what the desk of the program `scenes` does when it is run by hand, and that of the
/// library where it is linked.
#[test]
fn the_desk_by_hand() {
    let mut scenes = Scenes::built();
    let mut random = Random::seeded(21);
    for round in 0..30 {
        let line = 1 + (round % 3) as u8;
        let bytes = log(&mut random, line, 100);
        let input = on_line(line, &[&bytes]);
        let rows = replay(&input);
        assert_eq!(by_hand(&mut scenes, &input), rows, "scenes, round {round}");
        for face in library().into_iter().chain([&Second as &dyn Face]) {
            let mut ends = BothEnds::new(face);
            assert_eq!(by_hand(&mut ends, &input), rows, "round {round}");
        }
    }
}
