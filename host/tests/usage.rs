//! Every program says on standard error how it is called where its arguments are wrong, and ends
//! with status 2. The C examples are tried in `examples.rs`.

use host::programs::built::{built, command};
use std::process::{Command, Output, Stdio};

/// Checks that a run printed nothing, said how the program is called, and ended with status 2.
fn says(output: &Output, usage: &str) {
    assert_eq!(
        String::from_utf8_lossy(&output.stderr),
        format!("usage: {usage}\n")
    );
    assert_eq!(output.status.code(), Some(2), "{usage}");
    assert!(output.stdout.is_empty(), "{usage}");
}

#[test]
fn the_programs_of_the_host() {
    let capture = env!("CARGO_BIN_EXE_capture");
    let compare = env!("CARGO_BIN_EXE_compare");
    for (program, words, usage) in [
        (env!("CARGO_BIN_EXE_bench"), "x", "bench [second|fast]"),
        (capture, "", "capture LINE MIB SEED quiet|busy"),
        (capture, "4 1 7 busy", "capture LINE MIB SEED quiet|busy"),
        (capture, "1 1 7 loud", "capture LINE MIB SEED quiet|busy"),
        (compare, "many", "compare [CHUNKS [DIVIDED [itself]]]"),
        (compare, "1 0", "compare [CHUNKS [DIVIDED [itself]]]"),
        (compare, "1 1 other", "compare [CHUNKS [DIVIDED [itself]]]"),
        (
            env!("CARGO_BIN_EXE_demo"),
            "1 33",
            "demo LINE SEED SECONDS [PROGRAM [LOG [PANEL]]]",
        ),
        (env!("CARGO_BIN_EXE_losses"), "", "losses PROGRAM FILE.svg"),
        (env!("CARGO_BIN_EXE_samples"), "", "samples FOLDER"),
        (env!("CARGO_BIN_EXE_stack"), "x", "stack [CHUNKS [DIVIDED]]"),
    ] {
        let mut program = Command::new(program);
        let output = program.args(words.split_whitespace()).output();
        says(&output.expect("it runs"), usage);
    }
}

/// The proved programs take no argument: they would not read a file that is named there.
#[test]
fn the_proved_programs() {
    for (name, usage) in [
        ("listing", "listing < CAPTURE"),
        ("replay", "replay < LOG"),
        ("scenes", "scenes < SCRIPT"),
        ("cases", "cases < ROWS"),
        ("damage", "damage"),
    ] {
        let mut program = command(built(name));
        let output = program.arg("line1.cap").stdin(Stdio::null()).output();
        says(&output.expect("it runs"), usage);
    }
}

/// A program that is not there is said to be missing.
#[test]
fn a_missing_program() {
    let output = command("target/bin/none").output().expect("tools/run runs");
    assert_eq!(
        String::from_utf8_lossy(&output.stderr),
        "run: there is no program target/bin/none: build it first\n"
    );
    assert_eq!(output.status.code(), Some(2));
    let mut losses = Command::new(env!("CARGO_BIN_EXE_losses"));
    let output = losses.args(["target/bin/none", "none.svg"]).output();
    let output = output.expect("it runs");
    assert_eq!(output.status.code(), Some(2));
    assert_eq!(
        String::from_utf8_lossy(&output.stderr),
        "losses: target/bin/none: No such file or directory (os error 2)\n"
    );
}
