//! Each number of `include/in656.h` is what the compiled library answers, and the second version.

mod found;

use found::{defined, header, linked, Found};
use host::comparing::stack::most;
use host::second::face::Face;
use host::second::Second;

#[test]
fn numbers_of_the_header() {
    numbers_of(&Second);
    if let Some(library) = linked("numbers of the header") {
        numbers_of(library);
    }
}

fn numbers_of(face: &dyn Face) {
    let defined = defined();
    let mut found = Found::new(face);
    found.version();
    found.lines();
    found.lengths();
    found.places();
    found.packets();
    found.refusals();
    found.logs();
    found.desk();
    found.keys();
    found.timers();
    found.master();
    found.words(defined["WORDS_LENGTH"]);
    // the stack is measured below, and may be rounded up
    found.numbers.insert("STACK".into(), defined["STACK"]);
    assert_eq!(found.numbers, defined);
}

/// The whole version is made of its parts.
#[test]
fn the_version_is_one_number() {
    let parts = "IN656_VERSION_MAJOR * 65536u + IN656_VERSION_MINOR * 256u + IN656_VERSION_PATCH";
    let whole = format!("#define IN656_VERSION ({parts})\n");
    assert!(header().contains(&whole), "{whole}");
    let defined = defined();
    let narrow = ["VERSION_MINOR", "VERSION_PATCH"]
        .iter()
        .all(|part| defined[*part] < 256);
    assert!(narrow, "a part of the version is over 255");
}

/// No call needs more stack than the header says.
#[test]
fn the_stack_is_enough() {
    if linked("the stack").is_none() {
        return;
    }
    let stack = defined()["STACK"];
    for (call, bytes) in most(1, 20) {
        assert!(bytes as u64 <= stack, "in656_{call} needs {bytes} bytes");
    }
}
