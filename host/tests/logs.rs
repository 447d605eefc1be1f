//! The log of the second version: what its reader takes and refuses, in the order of request 1, and
//! what its writer writes. The compiled library is compared with it in `face.rs`.

use host::making::logs::{log, log_of, small, spoil};
use host::making::random::Random;
use host::second::logs::{add, entries, entry_at, write, Entry, Mark, HEAD, MARKS};

const TIME: u32 = 0x0102_0304;

fn entry(mark: Mark, bytes: &[u8]) -> Entry<'_> {
    let time = TIME;
    Entry { mark, time, bytes }
}

/// A head with this mark and length.
fn head(mark: &[u8], length: u8) -> Vec<u8> {
    [mark, &[1, 2, 3, 4, length]].concat()
}

/// What is said of bytes that stand behind a good record: the refusal, whose place is where they begin.
fn said(bytes: &[u8]) -> u8 {
    let good = log_of(&[(Mark::Hit, 9, b"")]);
    let log = [good.as_slice(), bytes].concat();
    let (found, refused) = entries(&log);
    assert_eq!(found.len(), 1, "{bytes:?}");
    let (refusal, place) = refused.expect("it is refused");
    assert_eq!(place, good.len(), "{bytes:?}");
    assert_eq!(entry_at(bytes, 0), Err((refusal, 0)), "{bytes:?}");
    refusal
}

/// The bytes of each mark, the time with its highest byte first, and the length.
#[test]
fn the_bytes_of_a_record() {
    let wanted: [(Mark, &[u8], &[u8]); 4] = [
        (Mark::Master, b"AB", b"M>\x01\x02\x03\x04\x02AB"),
        (Mark::Master, b"", b"M>\x01\x02\x03\x04\x00"),
        (Mark::Slave, b"\r", b"S>\x01\x02\x03\x04\x01\r"),
        (Mark::Hit, b"", b"H!\x01\x02\x03\x04\x00"),
    ];
    for (mark, bytes, record) in wanted {
        let mut room = [b'#'; 20];
        let entry = entry(mark, bytes);
        assert_eq!(write(&entry, &mut room), Ok(record.len()));
        assert_eq!(room[..record.len()], *record);
        assert!(room[record.len()..].iter().all(|byte| *byte == b'#'));
        assert_eq!(entry_at(record, 0), Ok(Some(entry)));
        assert_eq!(entry.length(), record.len());
    }
}

/// Nothing left is the end, and so is a start behind it.
#[test]
fn the_end_of_a_log() {
    assert_eq!(entries(b""), (Vec::new(), None));
    let log = small();
    for from in [log.len(), log.len() + 1, usize::MAX] {
        assert_eq!(entry_at(&log, from), Ok(None));
    }
    assert_eq!(entries(&log).0.len(), 7);
    assert_eq!(entries(&log).1, None);
}

#[test]
fn each_refusal_of_the_reader() {
    // 18: every other pair of bytes
    for first in 0..=255 {
        for second in 0..=255 {
            let mark = [first, second];
            let known = MARKS.iter().any(|known| known.bytes() == mark);
            assert!(known || said(&head(&mark, 0)) == 18, "{mark:?}");
        }
    }
    // 19: a length over 66, a hit with any length
    for length in 0..=255u8 {
        for mark in MARKS {
            let record = [head(&mark.bytes(), length), vec![b'x'; length.into()]].concat();
            let most = if mark == Mark::Hit { 0 } else { 66 };
            if length > most {
                assert_eq!(said(&record), 19, "{mark:?} {length}");
            } else {
                let read = entry_at(&record, 0).map(|entry| entry.map(|e| e.bytes.len()));
                assert_eq!(read, Ok(Some(length.into())));
            }
        }
    }
    // 20: one byte left, under seven, and bytes missing
    let longest = log_of(&[(Mark::Slave, 1, &[b'x'; 66])]);
    for length in 1..longest.len() {
        assert_eq!(said(&longest[..length]), 20, "{length}");
    }
}

/// Where two refusals could be given the earlier of the order is.
#[test]
fn each_pair_of_the_order() {
    // one byte left before a wrong mark: no mark begins with it
    assert_eq!(said(b"x"), 20);
    assert_eq!(said(b"M"), 20);
    // a wrong mark before under seven bytes left
    for length in 2..HEAD {
        assert_eq!(said(&head(b"M!", 0)[..length]), 18, "{length}");
    }
    // a wrong mark before a bad length, and before missing bytes
    assert_eq!(said(&head(b"xx", 255)), 18);
    assert_eq!(said(&head(b"h!", 1)), 18);
    assert_eq!(said(&head(b"S<", 66)), 18);
    // under seven bytes left before a bad length: the length itself is missing
    assert_eq!(said(&head(b"H!", 1)[..6]), 20);
    // a bad length before missing bytes
    assert_eq!(said(&head(b"M>", 67)), 19);
    assert_eq!(said(&head(b"S>", 255)), 19);
    assert_eq!(said(&head(b"H!", 1)), 19);
    assert_eq!(said(&head(b"H!", 255)), 19);
    assert_eq!(said(&head(b"M>", 66)), 20);
    assert_eq!(said(&head(b"S>", 1)), 20);
}

/// The writer checks 19, then 14, and writes nothing when it refuses.
#[test]
fn the_writer_refuses() {
    let long = [b'x'; 300];
    for mark in MARKS {
        for length in 0..long.len() {
            for room in [0, 6, 7, HEAD + length - 1, HEAD + length, 400] {
                let bad = length > if mark == Mark::Hit { 0 } else { 66 };
                let wanted = match (bad, room < HEAD + length) {
                    (true, _) => Err(19),
                    (false, true) => Err(14),
                    _ => Ok(HEAD + length),
                };
                let mut out = vec![0xEE; room];
                let answer = write(&entry(mark, &long[..length]), &mut out);
                assert_eq!(answer, wanted, "{mark:?} {length} {room}");
                let touched = out.iter().filter(|byte| **byte != 0xEE).count();
                assert_eq!(touched, answer.unwrap_or(0), "{mark:?} {length} {room}");
            }
        }
    }
}

/// Records that are read, written again, are the same bytes, and cover the log up to the refusal.
#[test]
fn what_is_read_is_written_again() {
    let mut random = Random::seeded(656);
    let mut ended = [0; 21];
    for round in 0..20_000 {
        let line = random.from_to(1, 3) as u8;
        let records = random.below(20);
        let mut bytes = log(&mut random, line, records);
        if round % 2 == 1 {
            spoil(&mut random, &mut bytes);
        }
        let (found, refused) = entries(&bytes);
        let (refusal, end) = refused.unwrap_or((0, bytes.len()));
        let mut again = Vec::new();
        for (offset, entry) in found {
            assert_eq!(offset, again.len(), "there is no gap");
            add(&mut again, &entry).expect("it was read");
        }
        assert_eq!(again, bytes[..end]);
        ended[usize::from(refusal)] += 1;
    }
    for refusal in [0, 18, 19, 20] {
        assert!(ended[refusal] > 100, "{refusal}: {}", ended[refusal]);
    }
}
