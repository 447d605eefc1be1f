//! Compares the compiled library with the second version through the C face, from fixed seeds:
//! `include/in656.h` and the rules. Where the library is not linked each test says so.

use host::comparing::linked::library;
use host::comparing::runs::judge_runs;
use host::comparing::{compare, figures, Tally, GATE};
use host::making::logs::small;
use host::second::face::Face;
use host::second::faults::FAULTS;
use host::second::Second;
use std::io::Write;
use std::process::{Command, Output};
use std::time::Instant;

/// Says something past the test runner, which hides what a passed test prints, so that the gate shows it.
fn say(text: &str) {
    let _ = writeln!(std::io::stderr(), "{text}");
}

/// The library, or a word on why the test is skipped.
fn linked(test: &str) -> Option<&'static dyn Face> {
    library()
        .inspect_err(|why| say(&format!("{test}: skipped, {why}")))
        .ok()
}

/// Runs a part of the comparison and shows its figures.
fn part(name: &str, run: impl FnOnce(&dyn Face) -> Tally) -> Option<Tally> {
    let library = linked(name)?;
    let from = Instant::now();
    let tally = run(library);
    let seconds = from.elapsed().as_secs_f32();
    say(&format!("{name}, no difference, {seconds:.1} s"));
    say(figures(&tally).trim_end());
    Some(tally)
}

/// Checks that a call was refused with each of these numbers.
fn refused(tally: &Tally, call: &str, numbers: impl IntoIterator<Item = u32>) {
    for number in numbers {
        let occurs = |told: &&(&str, u32, u32, u32, u32)| told.0 == call && told.1 == number;
        assert!(
            tally.keys().any(|told| occurs(&told)),
            "{call} is refused {number} at least once"
        );
    }
}

/// Checks that a call told each of these outcomes with each of its details.
fn reached(tally: &Tally, call: &str, outcome: u32, details: impl IntoIterator<Item = u32>) {
    for detail in details {
        let told = |lost| tally.get(&(call, 0, outcome, detail, lost)).copied();
        assert!(
            told(0).or(told(1)).is_some(),
            "{call} tells {outcome}.{detail} at least once"
        );
    }
}

fn sum(tally: &Tally, call: &str) -> u64 {
    let counts = tally.iter().filter(|(told, _)| told.0 == call);
    counts.map(|(_, count)| count).sum()
}

#[test]
fn frames_read() {
    let run = |library: &dyn Face| compare("frames read", GATE, library, &Second);
    if let Some(tally) = part("frames read", run) {
        assert!(sum(&tally, "read") > 2_000_000);
        reached(&tally, "read", 0, [0]);
        refused(&tally, "read", (1..=11).chain([14, 15]));
    }
}

#[test]
fn records_written() {
    let run = |library: &dyn Face| compare("records written", GATE, library, &Second);
    if let Some(tally) = part("records written", run) {
        assert!(sum(&tally, "write") > 1_000_000);
        reached(&tally, "write", 0, [0]);
        refused(&tally, "write", 12..=15);
    }
}

#[test]
fn streams_cut() {
    let run = |library: &dyn Face| compare("streams cut", GATE, library, &Second);
    if let Some(tally) = part("streams cut", run) {
        assert!(sum(&tally, "gatherer_start") >= 100_000);
        refused(&tally, "gatherer_start", [15]);
        for call in ["gatherer_byte", "next"] {
            reached(&tally, call, 0, [0]);
            reached(&tally, call, 1, [0]);
        }
        refused(&tally, "gatherer_byte", [15]);
        refused(&tally, "gatherer_hit", [15]);
    }
}

#[test]
fn sequences_of_calls() {
    let run = |library: &dyn Face| compare("sequences of calls", GATE, library, &Second);
    if let Some(tally) = part("sequences of calls", run) {
        assert!(sum(&tally, "desk_start") >= 200_000);
        for outcome in 2..=4 {
            reached(&tally, "desk_hear", outcome, [0]);
        }
        reached(&tally, "desk_hear", 5, 1..=7);
        refused(&tally, "desk_hear", [14, 15]);
        reached(&tally, "desk_hear, contents", 2, 1..=7);
        reached(&tally, "desk_hear, contents", 3, [6]);
        for outcome in 4..=5 {
            reached(&tally, "desk_hear, contents", outcome, 8..=11);
        }
        reached(&tally, "master_hear, contents", 4, 8..=11);
        reached(&tally, "master_hear, contents", 6, 1..=11);
        refused(&tally, "desk_start", [15]);
        refused(&tally, "desk_tick", [15]);
        refused(&tally, "desk_queue", [12, 13, 15, 17]);
        refused(&tally, "desk_set", [12, 13, 15]);
        refused(&tally, "desk_key", [12, 13, 15]);
        refused(&tally, "desk_clear_queue", [15]);
        refused(&tally, "desk_clear_set", [15]);
        for call in ["desk_look", "desk_waiting", "desk_due", "master_due"] {
            assert!(sum(&tally, call) > 400_000, "{call}");
        }
        assert!(
            tally.contains_key(&("desk_tick", 0, 1, 0, 1)),
            "a tick notes the line lost"
        );
        reached(&tally, "master_tick", 1, [0]);
        reached(&tally, "master_tick", 2, [2, 3]);
        reached(&tally, "master_tick", 5, [1]);
        reached(&tally, "master_offer", 2, [1]);
        reached(&tally, "master_hear", 2, [2]);
        reached(&tally, "master_hear", 3, [0]);
        reached(&tally, "master_hear", 4, [0]);
        reached(&tally, "master_hear", 5, [2]);
        reached(&tally, "master_hear", 6, 1..=4);
        refused(&tally, "master_start", [15]);
        refused(&tally, "master_tick", [14, 15]);
        refused(&tally, "master_hear", [14, 15]);
        refused(&tally, "master_offer", 12..=16);
    }
}

/// 100,000 logs, and a small one with each byte replaced by every value, read and run on a fresh desk.
#[test]
fn logs_replayed() {
    let run = |library: &dyn Face| compare("logs replayed", GATE, library, &Second);
    if let Some(tally) = part("logs replayed", run) {
        let changed = 256 * small().len() as u64;
        assert_eq!(sum(&tally, "desk_start"), 100_000 + changed);
        for mark in 0..=3 {
            reached(&tally, "log_read", mark, [0]);
        }
        refused(&tally, "log_read", 18..=20);
        for outcome in 2..=4 {
            reached(&tally, "desk_hear", outcome, [0]);
        }
        reached(&tally, "desk_hear", 5, 3..=7);
        assert!(
            tally.contains_key(&("desk_tick", 0, 1, 0, 1)),
            "a hit notes the line lost"
        );
    }
}

#[test]
fn records_of_a_log_written() {
    let run = |library: &dyn Face| compare("records of a log written", GATE, library, &Second);
    if let Some(tally) = part("records of a log written", run) {
        assert_eq!(sum(&tally, "log_write"), 1_000_000);
        reached(&tally, "log_write", 0, [0]);
        refused(&tally, "log_write", [14, 18, 19]);
    }
}

#[test]
fn packets_and_values() {
    let run = |library: &dyn Face| compare("packets and values", GATE, library, &Second);
    if let Some(tally) = part("packets and values", run) {
        for call in ["packet", "record", "value", "put_value"] {
            assert!(sum(&tally, call) > 1_000_000);
            reached(&tally, call, 0, [0]);
            refused(&tally, call, [12, 15]);
        }
        reached(&tally, "packet", 1, [0]);
        reached(&tally, "packet", 2, [0]);
        refused(&tally, "record", [14]);
        refused(&tally, "value", [10]);
        refused(&tally, "put_value", [10]);
    }
}

/// Looks, what is due with the ticks around it, and clearing, on made states.
#[test]
fn states_looked_at() {
    let run = |library: &dyn Face| compare("states looked at", GATE, library, &Second);
    if let Some(tally) = part("states looked at", run) {
        for call in ["desk_look", "desk_due", "desk_clear_queue"] {
            assert!(sum(&tally, call) >= 100_000);
            refused(&tally, call, [15]);
        }
        for call in ["desk_waiting", "master_look", "master_due"] {
            assert!(sum(&tally, call) >= 100_000);
            refused(&tally, call, [15]);
        }
        for call in ["desk_look", "desk_waiting", "master_look"] {
            refused(&tally, call, [14]);
        }
        reached(&tally, "desk_due", 0, [0]);
        reached(&tally, "desk_due", 1, [0]);
        reached(&tally, "master_due", 1, [0]);
        reached(&tally, "master_look", 1, [0, 1]);
        reached(&tally, "master_look", 2, [0, 1]);
        reached(&tally, "master_tick", 1, [0]);
        reached(&tally, "master_tick", 2, [2, 3]);
        reached(&tally, "master_tick", 5, [1]);
        assert!(
            tally.contains_key(&("desk_tick", 0, 1, 0, 1)),
            "a tick notes the line lost"
        );
    }
}

#[test]
fn words_said() {
    let run = |library: &dyn Face| compare("words", GATE, library, &Second);
    if let Some(tally) = part("words", run) {
        for call in ["refusal_words", "desk_words", "master_words"] {
            assert!(sum(&tally, call) > 1_000_000);
            reached(&tally, call, 0, [0]);
            refused(&tally, call, [13, 14]);
        }
    }
}

#[test]
fn editions_asked() {
    let run = |library: &dyn Face| compare("editions", GATE, library, &Second);
    if let Some(tally) = part("editions", run) {
        assert!(sum(&tally, "same_edition") > 1_000_000);
        reached(&tally, "same_edition", 0, [0]);
        reached(&tally, "same_edition", 1, [0]);
    }
}

/// Demand 3's sentences on runs of the two compiled ends.
#[test]
fn runs_judged() {
    let run = |library: &dyn Face| judge_runs(library, GATE);
    if let Some(tally) = part("runs judged by demand 3", run) {
        assert_eq!(sum(&tally, "runs"), 100_000);
        assert!(sum(&tally, "runs as supposed") > 50_000);
        assert!(sum(&tally, "runs as supposed, none given up") > 20_000);
        assert!(sum(&tally, "noted lost") > 1_000);
        assert!(sum(&tally, "cleared") > 100_000);
        let broken = sum(&tally, "other runs that break a sentence");
        assert!(broken > 0, "what is supposed is needed");
    }
}

/// What the program `compare` says with a fault switched on.
fn compared(fault: &str, words: &[&str]) -> Output {
    let mut program = Command::new(env!("CARGO_BIN_EXE_compare"));
    program.args(words).env("HOST_FAULT", fault);
    program.output().expect("the program runs")
}

/// Checks that a fault is found, and is said to be a difference of this kind.
fn found(fault: &str, words: &[&str], kind: &str) {
    let output = compared(fault, words);
    let said = String::from_utf8_lossy(&output.stderr);
    assert!(!output.status.success(), "{fault} is found");
    assert!(said.contains(kind), "{fault} is a difference: {said}");
}

/// Each deliberate fault of the second version is found.
#[test]
fn faults_found() {
    if linked("faults found").is_none() {
        return;
    }
    assert!(compared("", &["1", "10"]).status.success(), "no fault");
    for fault in FAULTS {
        found(fault, &["1", "10"], " differs\n");
    }
}

/// The judge of demand 3 finds a fault that both have.
#[test]
fn fault_judged() {
    let words = ["1", "10", "itself"];
    assert!(compared("", &words).status.success(), "no fault");
    let broken = "differs: not 'handled in the order first sent, none twice'";
    found("queue popped on a repeat", &words, broken);
}

/// No call reads or writes outside what it is lent, and none reads a byte that was never written.
#[test]
fn under_valgrind() {
    if linked("under valgrind").is_none() {
        return;
    }
    if Command::new("valgrind").arg("--version").output().is_err() {
        return say("under valgrind: skipped, valgrind is not installed");
    }
    let from = Instant::now();
    let mut command = Command::new("valgrind");
    command.args([
        "--quiet",
        "--error-exitcode=9",
        env!("CARGO_BIN_EXE_compare"),
    ]);
    let output = command.args(["1", "40"]).output().expect("it runs");
    let said = String::from_utf8_lossy(&output.stderr);
    assert!(output.status.success(), "valgrind complains: {said}");
    let seconds = from.elapsed().as_secs_f32();
    say(&format!("under valgrind, no complaint, {seconds:.1} s"));
}
