//! The built program `replay` against the second version where pieces of input meet, and on long and
//! slow input.

mod running;

use host::making::logs::{log, log_of, small};
use host::making::random::Random;
use host::second::framing::framed;
use host::second::logs::{Mark, HEAD};
use running::{on_line, REPLAY};
use std::time::Duration;

/// The size of the pieces in which the program reads at least.
const PIECE: usize = 65_536;

/// A small log in two pieces that meet at every byte, byte by byte, and in random pieces.
#[test]
fn pieces_at_every_boundary() {
    let input = on_line(1, &[&small()]);
    for first in 1..input.len() {
        let mut sizes = [first, input.len()].into_iter();
        REPLAY.compare_slowly("two pieces", &input, Duration::from_millis(15), || {
            sizes.next().unwrap_or(1)
        });
    }
    let mut random = Random::seeded(22);
    for line in 1..=3 {
        let rest = Duration::from_micros(300);
        let bytes = log(&mut random, line, 40);
        let input = on_line(line, &[&bytes]);
        REPLAY.compare_slowly("byte by byte", &input, rest, || 1);
        let bytes = log(&mut random, line, 3_000);
        let input = on_line(line, &[&bytes]);
        REPLAY.compare_slowly("in writes", &input, rest, || random.from_to(1, 900));
    }
    REPLAY.compare_slowly("digit alone", b"1", Duration::from_millis(20), || 1);
}

/// Long logs of records of one length. The lengths are odd, so that records lie across the pieces'
/// boundaries in every way.
#[test]
fn long_logs() {
    let g = framed(b'G', b'0', b"E288");
    let full = framed(b'A', b'1', &[b'A'; 58]);
    for (mark, bytes, length) in [
        (Mark::Master, full.as_slice(), 73),
        (Mark::Master, &g, 19),
        (Mark::Slave, &g, 19),
        (Mark::Hit, b"", 7),
    ] {
        let record = log_of(&[(mark, 5, bytes)]);
        assert_eq!(record.len(), length);
        let times = (length + 2) * PIECE / length;
        let rest = log_of(&[(Mark::Master, 6, b"")]);
        let input = on_line(1, &[&record.repeat(times), &rest, b"M>"]);
        let rows = REPLAY.compare_from_file(&format!("{mark:?} of {length}"), &input);
        let end = record.len() * times;
        let behind = end + HEAD;
        let wanted = format!("{} {end} 6 silent, no 1 0\nno 20 {behind}\n", times + 1);
        assert!(rows.ends_with(&wanted), "{mark:?} of {length}");
    }
}

/// Logs that are cut or go wrong near the boundary of two pieces.
#[test]
fn ends_near_boundaries() {
    let record = log_of(&[(Mark::Slave, 5, &[b'x'; 66])]);
    let log = record.repeat(2 * PIECE / record.len() + 2);
    for shift in (0..=150).step_by(5) {
        let length = PIECE - 75 + shift;
        let cut = on_line(3, &[&log[..length]]);
        let rows = REPLAY.compare_from_file("cut near a boundary", &cut);
        let left = length % record.len();
        let wanted = format!("no 20 {}\n", length - left);
        assert_eq!(rows, if left == 0 { "" } else { &wanted });
    }
    for begins in (0..log.len()).step_by(record.len()) {
        if begins.abs_diff(PIECE) < 80 {
            for (index, value, refusal) in [(1, b'<', 18), (6, 67, 19)] {
                let mut wrong = log.clone();
                wrong[begins + index] = value;
                let rows = REPLAY.compare_from_file("wrong near one", &on_line(3, &[&wrong]));
                assert_eq!(rows, format!("no {refusal} {begins}\n"));
            }
        }
    }
}

/// Many random rows, by pipe and from a file.
#[test]
fn random_logs_of_4_mib() {
    let mut random = Random::seeded(23);
    let mut bytes = Vec::new();
    while bytes.len() < 4 << 20 {
        bytes.extend(log(&mut random, 3, 20_000));
    }
    let input = on_line(3, &[&bytes]);
    REPLAY.compare("4 MiB of log", &input);
    let rows = REPLAY.compare_from_file("4 MiB of log from a file", &input);
    assert!(rows.lines().count() > 50_000);
}

#[test]
#[ignore = "feeds more than 4 GiB"]
fn an_offset_past_4_gib() {
    let record = log_of(&[(Mark::Slave, 5, &[b'x'; 66])]);
    let piece = record.repeat(14_400);
    let end = log_of(&[(Mark::Hit, u32::MAX, b"")]);
    let times = (1 << 32) / piece.len() + 1;
    let printed = REPLAY.printed_for(b"1", &piece, times, &end);
    let (ordinal, offset) = (14_400 * times + 1, piece.len() * times);
    let wanted = format!("{ordinal} {offset} 4294967295 done\n");
    assert_eq!(String::from_utf8_lossy(&printed), wanted);
}
