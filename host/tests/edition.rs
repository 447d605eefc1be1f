//! The edition: what a program that was compiled with the header relies on changes only with the edition's number.

mod found;

use found::{defined, header, linked, LENGTHS};
use host::second::face::{Answer, Face};
use host::second::Second;
use std::mem::{offset_of, size_of};
use std::path::Path;

/// What an edition fixes of the result: its size, and the offset and size of each of its fields. Its numbers and calls stand in a list.
struct Edition {
    number: u64,
    result: usize,
    fields: &'static [(&'static str, usize, usize)],
    list: &'static str,
}

/// Each edition. A row never changes: what differs needs a row, and a number, of its own.
const EDITIONS: &[Edition] = &[Edition {
    number: 1,
    result: 80,
    fields: &[
        ("refusal", 0, 4),
        ("outcome", 4, 4),
        ("detail", 8, 4),
        ("contents", 12, 4),
        ("place", 16, 8),
        ("written", 24, 8),
        ("number", 32, 4),
        ("count", 36, 4),
        ("lost", 40, 4),
        ("record", 44, 4),
        ("sum", 48, 4),
        ("found", 52, 4),
        ("unsent", 56, 4),
        ("reserved", 60, 20),
    ],
    list: include_str!("editions/1.txt"),
}];

/// What a change without a new number is told.
const CHANGED: &str = "programs that were compiled with this edition rely on it: a change needs a new IN656_VERSION_MAJOR, and a row in EDITIONS";

/// The row of the header's edition.
fn row() -> &'static Edition {
    let number = defined()["VERSION_MAJOR"];
    let row = EDITIONS.iter().find(|edition| edition.number == number);
    row.unwrap_or_else(|| panic!("edition {number} has no row in EDITIONS: write what it fixes"))
}

/// The fields of the header's structure with their offsets and sizes, as a C compiler lays them out, and the whole size.
fn structure() -> (Vec<(String, usize, usize)>, usize) {
    let text = header();
    let body = text.split("typedef struct in656_result {").nth(1);
    let body = body.and_then(|rest| rest.split("} in656_result;").next());
    let (mut fields, mut end, mut widest) = (Vec::new(), 0, 1);
    for line in body.expect("the structure").lines() {
        let Some((declared, _)) = line.split_once(';') else {
            continue;
        };
        let words: Vec<&str> = declared.split_whitespace().collect();
        let width: usize = match words[0] {
            "uint32_t" => 4,
            "uint64_t" => 8,
            other => panic!("a field of {other}: {CHANGED}"),
        };
        let (name, many) = match words[1].split_once('[') {
            Some((name, many)) => (name, many.trim_end_matches(']').parse().expect("a count")),
            None => (words[1], 1),
        };
        end = usize::next_multiple_of(end, width);
        fields.push((name.to_string(), end, width * many));
        end += width * many;
        widest = widest.max(width);
    }
    (fields, end.next_multiple_of(widest))
}

#[test]
fn the_result_keeps_its_edition() {
    let (fields, size) = structure();
    let fields: Vec<_> = fields
        .iter()
        .map(|(name, at, size)| (name.as_str(), *at, *size))
        .collect();
    assert_eq!(fields, row().fields, "in656_result: {CHANGED}");
    assert_eq!(size, row().result, "in656_result: {CHANGED}");
}

/// The header's numbers and calls, a line for each, without those that a later header of the edition changes.
fn relied_on() -> Vec<String> {
    let is_of_later = |name: &str| ["VERSION_MINOR", "VERSION_PATCH"].contains(&name);
    let numbers = defined();
    let numbers = numbers.iter().filter(|(name, _)| !is_of_later(name));
    let mut lines: Vec<String> = numbers
        .map(|(name, number)| format!("IN656_{name} {number}"))
        .collect();
    let text = header();
    let calls = text
        .lines()
        .filter(|line| line.contains(" in656_") && line.ends_with(");"));
    lines.extend(calls.map(String::from));
    lines
}

/// No number and no call of the edition has changed or gone. With WRITE=1 a new one is put into the list.
#[test]
fn the_numbers_and_calls_keep_their_edition() {
    let (edition, lines) = (row(), relied_on());
    for known in edition.list.lines() {
        assert!(lines.iter().any(|line| line == known), "{known}: {CHANGED}");
    }
    if std::env::var_os("WRITE").is_some() {
        let path = format!("tests/editions/{}.txt", edition.number);
        let path = Path::new(env!("CARGO_MANIFEST_DIR")).join(path);
        return std::fs::write(path, lines.join("\n") + "\n").expect("the list is written");
    }
    for line in &lines {
        assert!(
            edition.list.lines().any(|known| known == line),
            "{line}: it is new, so IN656_VERSION_MINOR goes up, and with WRITE=1 this test puts it into the edition's list"
        );
    }
}

/// The lengths of a face are the header's, and so is its edition.
fn kept(face: &dyn Face) {
    let (edition, defined) = (row(), defined());
    let [result, lengths @ ..] = face.lengths();
    assert_eq!(result, edition.result, "in656_result: {CHANGED}");
    for (name, length) in LENGTHS.into_iter().zip(lengths) {
        assert_eq!(length as u64, defined[name], "IN656_{name}: {CHANGED}");
    }
    let version = face.version();
    assert_eq!(u64::from(version / 65_536), edition.number, "{version:#x}");
}

#[test]
fn the_library_keeps_its_edition() {
    kept(&Second);
    if let Some(library) = linked("the edition") {
        kept(library);
    }
}

/// The structure that the tests of the library take is the header's.
#[test]
fn the_tests_take_the_same_structure() {
    let offsets = [
        offset_of!(Answer, refusal),
        offset_of!(Answer, outcome),
        offset_of!(Answer, detail),
        offset_of!(Answer, contents),
        offset_of!(Answer, place),
        offset_of!(Answer, written),
        offset_of!(Answer, number),
        offset_of!(Answer, count),
        offset_of!(Answer, lost),
        offset_of!(Answer, record),
        offset_of!(Answer, sum),
        offset_of!(Answer, found),
        offset_of!(Answer, unsent),
        offset_of!(Answer, reserved),
    ];
    let wanted: Vec<usize> = row().fields.iter().map(|(_, at, _)| *at).collect();
    assert_eq!(offsets.as_slice(), wanted);
    assert_eq!(size_of::<Answer>(), row().result);
}

/// A program with a later header of the edition is told so, and so is one of another edition.
#[test]
fn later_programs_are_told() {
    for face in linked("later programs").into_iter().chain([&Second as _]) {
        let face: &dyn Face = face;
        let version = face.version();
        for (asked, may) in [
            (version, 1),
            (version + 255, 1),
            (version + 256, 0),
            (version + 65_536, 0),
            (version - 65_536, 0),
            (0, 0),
            (u32::MAX, 0),
        ] {
            assert_eq!(face.same_edition(asked), may, "{asked:#x}");
        }
    }
}
