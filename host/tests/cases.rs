//! The programs `cases` and `damage`: no row differs from what it expects, none is left out, and
//! the second version expects the same: rules W9, W10 and R1 to R15.

use host::programs::built::said;
use host::second::reading::{checksum, form_of, read};
use host::second::records::Record;
use host::second::words::{meant, visible};
use std::path::Path;

/// A file of the repository.
fn text(path: &str) -> String {
    let path = Path::new(env!("CARGO_MANIFEST_DIR")).join("..").join(path);
    std::fs::read_to_string(path).expect("the file is read")
}

/// The cases, each as its fields.
fn cases() -> Vec<Vec<String>> {
    let rows = text("crates/cases/stdin");
    rows.lines()
        .map(|row| row.split('|').map(String::from).collect())
        .collect()
}

/// The name and the expectation of each row that a program printed. Checks that no row differs from
/// what came, and that the last row has their number.
fn agreed(said: &str) -> Vec<(String, String)> {
    let (rows, count) = said.trim_end().rsplit_once('\n').expect("rows and a count");
    let rows: Vec<_> = rows
        .lines()
        .map(|row| {
            let (name, rest) = row.split_once(": expected ").expect(row);
            let (expected, came) = rest.split_once(", came ").expect(row);
            assert_eq!(expected, came, "{name}");
            (name.into(), expected.into())
        })
        .collect();
    assert_eq!(count, format!("{} rows, 0 differ", rows.len()));
    rows
}

#[test]
fn no_case_differs_or_is_left_out() {
    let wanted: Vec<_> = cases()
        .iter()
        .map(|fields| (fields[0].clone(), fields[fields.len() - 1].clone()))
        .collect();
    assert_eq!(agreed(&text("crates/cases/stdout")), wanted);
    assert!(wanted.len() >= 111);
}

#[test]
fn no_damage_differs_or_is_left_out() {
    let row = |name: String, all| (name, format!("{all} of {all}"));
    let mut wanted = Vec::new();
    for index in 0..23 {
        wanted.push(row(format!("h, byte {index} replaced"), 256));
    }
    for index in 3..20 {
        let name = format!("h, byte {index} replaced, sum made right");
        wanted.push(row(name, 256));
    }
    wanted.push(row("lengths 0 to 4095".into(), 4096));
    assert_eq!(agreed(&text("crates/damage/stdout")), wanted);
}

fn refused(number: u8, place: usize) -> String {
    format!("no {number} {place}")
}

fn small(text: &str) -> u8 {
    text.parse().expect("a number of one byte")
}

/// What the second version reads.
fn reading(line: &str, bytes: &str) -> String {
    let line = small(line);
    match read(line, &meant(bytes)) {
        Err((number, place)) => refused(number, place),
        Ok(reading) => {
            let mut said = format!("ok {} {}", char::from(reading.type_byte), reading.number);
            for value in Record::read(line, &reading).values {
                said.push_str(&format!(" {value}"));
            }
            said
        }
    }
}

/// What the second version writes, and what then stands in a room of #.
fn writing(line: u8, type_byte: u8, number: u8, room: usize, values: &str) -> String {
    let values = values.split(' ').map(|v| v.parse().expect("a value"));
    let record = Record {
        type_byte,
        values: values.collect(),
    };
    let telegram = record.telegram(line, number % 2).filter(|_| number < 2);
    let said = match (form_of(line, type_byte), telegram) {
        _ if !(1..=3).contains(&line) => refused(15, 0),
        (None, _) => refused(12, 0),
        (_, None) => refused(13, 0),
        (_, Some(telegram)) if room < telegram.len() => refused(14, 0),
        (_, Some(telegram)) => {
            let left = "#".repeat(room - telegram.len());
            return format!("written {} {}{left}", telegram.len(), visible(&telegram));
        }
    };
    format!("{said} {}", "#".repeat(room))
}

#[test]
fn the_second_version_expects_the_same() {
    for fields in cases() {
        let fields: Vec<&str> = fields.iter().map(String::as_str).collect();
        let (came, expected) = match fields[1..] {
            ["R", line, bytes, expected] => (reading(line, bytes), expected),
            ["S", bytes, expected] => (checksum(&meant(bytes)), expected),
            ["W", line, kind, number, room, values, expected] => {
                let room = room.parse().expect("a room");
                let kind = kind.as_bytes()[0];
                let came = writing(small(line), kind, small(number), room, values);
                (came, expected)
            }
            _ => panic!("{} is no case", fields[0]),
        };
        assert_eq!(came, expected, "{}", fields[0]);
    }
}

/// A row that expects something other than what comes is marked and counted.
#[test]
fn a_wrong_expectation_is_marked() {
    let script = "\
right|R|3|<08A0AAA5>|ok A 0 65
another|R|3|<08A0AAA5>|ok A 0 66
shorter|R|3|<08A0AAA5>|ok A 0 6
longer|R|3|<08A0AAA5>|ok A 0 655
empty|R|3|<08A0AAA5>|
written|W|3|A|0|9|65|no 14 0 ########
summed|S|=01=10=A0=00=C9|87
no room|W|3|A|0|65|65|
no kind|Q|
right again|S|=01=10=A0=00=C9|86
";
    let wanted = "\
right: expected ok A 0 65, came ok A 0 65
another: expected ok A 0 66, came ok A 0 65, DIFFERS
shorter: expected ok A 0 6, came ok A 0 65, DIFFERS
longer: expected ok A 0 655, came ok A 0 65, DIFFERS
empty: expected , came ok A 0 65, DIFFERS
written: expected no 14 0 ########, came no 14 0 #########, DIFFERS
summed: expected 87, came 86, DIFFERS
no room: expected , came room over 64, DIFFERS
no kind: expected , came no such row, DIFFERS
right again: expected 86, came 86
10 rows, 8 differ
";
    assert_eq!(said("cases", script), wanted);
    assert_eq!(said("cases", ""), "0 rows, 0 differ\n");
}

/// Many rows are all run.
#[test]
fn every_row_is_run() {
    let script = "a|R|3|<08A0AAA5>|ok A 0 65\n".repeat(2_000);
    assert_eq!(agreed(&said("cases", &script)).len(), 2_000);
}
