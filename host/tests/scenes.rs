//! Compares the built program `scenes` with the second version of the two ends: rules
//! E1 to E12, K6, M1 to M19 and D1 to D19, and docs/SCENES.md for the rows.

use host::making::random::Random;
use host::making::scripts::script;
use host::programs::answers::{done_in, hearing_in, telling_in, ticked_in};
use host::programs::built::said;
use host::second::clock::elapsed;
use host::second::script::{run, Bench, Row};
use host::second::words::{done, hearing, output, ticked, told};
use std::path::{Path, PathBuf};

/// A path in the repository.
fn repository(path: &str) -> PathBuf {
    Path::new(env!("CARGO_MANIFEST_DIR")).join("..").join(path)
}

/// Compares what the program says of a script with the second version, row by row.
fn compare(name: &str, script: &str) {
    let (got, want) = (said("scenes", script), run(script));
    let lines = got.lines().zip(want.lines()).enumerate();
    let mut row = "";
    for (index, (got, want)) in lines {
        assert_eq!(got, want, "{name}: line {}, after {row}", index + 1);
        row = got;
    }
    assert_eq!(got.len(), want.len(), "{name}: one says more");
}

/// The scenes of the papers: the second version says what `stdout` expects.
#[test]
fn papers_scenes() {
    let read = |path| std::fs::read_to_string(repository(path)).expect("the file is read");
    let script = read("crates/scenes/stdin");
    assert_eq!(run(&script), read("crates/scenes/stdout"));
}

/// Many scripts from fixed seeds, on each line, and on lines that do not exist.
#[test]
fn made_scripts() {
    for seed in 0..60 {
        let mut random = Random::seeded(seed);
        for line in 0..=4 {
            let rows = if (1..=3).contains(&line) { 2_000 } else { 100 };
            let text = script(&mut random, line, rows);
            compare(&format!("seed {seed}, line {line}"), &text);
        }
    }
}

/// What the made scripts reach: every way that a hearing can end, and every refusal.
#[test]
fn made_scripts_reach() {
    let mut random = Random::seeded(1_000);
    let texts: String = (1..=3)
        .map(|line| run(&script(&mut random, line, 40_000)))
        .collect();
    for what in [
        "handled, requested",
        "handled, queue",
        "handled, key A",
        "handled, key X",
        "handled, panel O",
        "handled, contents no 8",
        "handled, contents no 9",
        "handled, contents no 10",
        "handled, contents no 11",
        "handled, not the master's",
        "handled, nothing set",
        "line noted lost, handled",
        "line noted lost, silent",
        "line noted lost, fault",
        "  line noted lost;",
        "repeat, ",
        "silent, no 6",
        "silent, no 7",
        "fault, ",
        "sent again, count 2",
        "sent again, count 3",
        "polled, count 1, 10 bytes <08r0BB72>",
        "polled, count 1, 10 bytes <08r1B57E>",
        "polled, count 1, 10 bytes <08t0Bt3E>",
        "answered, count 1",
        "answered, count 2",
        "answered, count 3",
        "another kind, count 1, no 8",
        "another kind, count 1, K",
        "another kind, count 1, A 88",
        "answered, count 1, A 88",
        "answered, count 1, A 89",
        ", operation; line good",
        ", operation; line lost",
        ", operation, T2 ",
        "given up, silence, count 3",
        "given up, rejected, count 3",
        "ignored, free",
        "ignored, T2 run out",
        "ignored, other number",
        "ignored, no 1",
        "ignored, no 4",
        "ignored, no 6",
        "ignored, no 7",
        "desk clear_queue\n  done; line good",
        "desk clear_set\n  done; line lost",
        "due never; line lost",
        "due after 0; line good",
        "due after 1",
        "due after 28000; line good",
        "  no 12 0",
        "  no 13 0",
        "  no 14 0",
        "  no 15 0",
        "  no 16 0",
        "  no 17 0",
        "  no such row",
    ] {
        assert!(texts.contains(what), "{what} does not occur");
    }
}

/// The value that is read out of an answer says the same words again.
#[test]
fn answers_are_read() {
    let mut random = Random::seeded(3_000);
    let mut read = 0;
    for line in 1..=3 {
        let mut bench = Bench::new();
        for text in script(&mut random, line, 20_000).lines() {
            let came = bench.row(text);
            let Some((answer, _)) = came.lines().nth(1).and_then(|came| came.rsplit_once(';'))
            else {
                continue;
            };
            let (row, answer) = (Row { text }, answer.trim());
            let again = match (row.word(0), row.word(1)) {
                (_, "alter" | "show" | "due") => continue,
                ("master", _) => telling_in(answer).map(|(did, sent)| told(&did) + &output(&sent)),
                (_, "tick") => ticked_in(answer).map(ticked),
                (_, "hear") => hearing_in(answer).map(hearing),
                _ => done_in(answer).map(done),
            };
            assert_eq!(again.as_deref(), Some(answer), "{text}");
            read += 1;
        }
    }
    assert!(read > 40_000, "{read}");
}

/// The made scripts have ticks of a free master just before and just when T0 runs out, on each line,
/// on line 3 also in position Operation.
#[test]
fn made_scripts_reach_the_polls() {
    let wanted = [
        (1, false, 20_000),
        (2, false, 5_000),
        (3, false, 10_000),
        (3, true, 20_000),
    ];
    let mut polled = [[0; 2]; 4];
    let mut random = Random::seeded(2_000);
    for line in 1..=3 {
        let mut bench = Bench::new();
        for text in script(&mut random, line, 60_000).lines() {
            let (row, before) = (Row { text }, bench.master.clone());
            let came = bench.row(text);
            if !text.starts_with("master tick") || before.count != 0 || came.contains("  no ") {
                continue;
            }
            let passed = elapsed(row.number(2), before.t0);
            for (index, (line, operation, limit)) in wanted.into_iter().enumerate() {
                let same = (before.line, before.operation) == (line, operation);
                if same && (passed == limit || passed + 1 == limit) {
                    let sent = usize::from(came.contains("polled"));
                    assert_eq!(sent, usize::from(passed == limit), "{text}: {came}");
                    polled[index][sent] += 1;
                }
            }
        }
    }
    assert!(
        polled.iter().flatten().all(|count| *count > 4),
        "{polled:?}"
    );
}
