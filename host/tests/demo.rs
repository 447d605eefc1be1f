//! Both ends over a simulated line: demand 3 on what happened, and the kept exchange.

use host::comparing::linked::library;
use host::line::demand::{history, judge, supposed, Item};
use host::line::demo::run;
use host::line::faced::BothEnds;
use host::line::odds::{asked, SHOWN};
use host::line::simulated::{Event, Happened};
use host::line::timeline::timeline;
use host::programs::scenes::Scenes;
use host::second::face::Face;
use host::second::master::Told;
use host::second::Second;
use std::path::{Path, PathBuf};
use std::process::Command;

/// A path in the repository.
fn repository(path: &str) -> PathBuf {
    Path::new(env!("CARGO_MANIFEST_DIR")).join("..").join(path)
}

/// What happens in a demonstration whose ends stand behind a face.
fn by(face: &dyn Face, line: u8, seed: u64) -> Vec<Happened> {
    run(&mut BothEnds::new(face), &SHOWN, line, seed, 90_000)
}

/// The exchange that `make demo` shows.
#[test]
fn kept_exchange() {
    let kept = std::fs::read_to_string(repository("samples/exchange.txt")).expect("it is read");
    let happened = run(&mut Scenes::built(), &SHOWN, 1, 33, 90_000);
    assert_eq!(timeline(1, &happened), kept);
    if let Ok(face) = library() {
        assert_eq!(timeline(1, &by(face, 1, 33)), kept, "by the library");
    }
}

/// What the demonstration takes: another line, no time and words are refused with status 2.
#[test]
fn asked_for() {
    assert_eq!(asked("3", "0", "1"), Ok((3, 0, 1)));
    assert_eq!(asked("1", "33", "4294967"), Ok((1, 33, 4_294_967)));
    for (words, trouble) in [
        (["4", "33", "90"], "LINE is 1, 2 or 3, not '4'"),
        (["0", "33", "90"], "LINE is 1, 2 or 3, not '0'"),
        (["257", "33", "90"], "LINE is 1, 2 or 3, not '257'"),
        (["", "33", "90"], "LINE is 1, 2 or 3, not ''"),
        (["1", "x", "90"], "SEED is a number, not 'x'"),
        (["1", "33", "0"], "SECONDS is 1 to 4294967, not '0'"),
        (["1", "33", "-1"], "SECONDS is 1 to 4294967, not '-1'"),
        (
            ["1", "33", "4294968"],
            "SECONDS is 1 to 4294967, not '4294968'",
        ),
    ] {
        let output = Command::new(env!("CARGO_BIN_EXE_demo"))
            .args(words)
            .arg("no program")
            .output()
            .expect("it runs");
        assert_eq!(output.status.code(), Some(2), "{words:?}");
        assert_eq!(
            String::from_utf8_lossy(&output.stderr),
            format!("demo: {trouble}\n")
        );
        assert!(output.stdout.is_empty());
    }
}

/// Runs from many seeds: the program, the second version and, where it is linked, the library say
/// the same, and demand 3 holds.
#[test]
fn many_exchanges() {
    let mut program = Scenes::built();
    let mut reached = [false; 4];
    for seed in 0..20 {
        for line in 1..=3 {
            let happened = run(&mut program, &SHOWN, line, seed, 90_000);
            let (text, second) = (timeline(line, &happened), by(&Second, line, seed));
            assert_eq!(text, timeline(line, &second), "line {line}, seed {seed}");
            assert_eq!(happened, second, "line {line}, seed {seed}");
            if let Ok(face) = library() {
                let third = by(face, line, seed);
                assert_eq!(
                    text,
                    timeline(line, &third),
                    "line {line}, seed {seed}, by the library"
                );
                assert_eq!(third, second, "line {line}, seed {seed}, by the library");
            }
            let history = history(&happened);
            assert!(
                supposed(&history),
                "line {line}, seed {seed}: the supposition"
            );
            for (sentence, holds) in judge(&history) {
                assert!(holds, "line {line}, seed {seed}: {sentence}");
            }
            let handled = |wanted: usize| {
                let is =
                    |item: &Item| matches!(item, Item::Handled(telegram, _) if *telegram == wanted);
                history.iter().any(is)
            };
            let unhandled =
                |item: &Item| matches!(item, Item::Answered(telegram, ..) if !handled(*telegram));
            reached[0] |= history.contains(&Item::Noted);
            reached[1] |= history.iter().any(|item| matches!(item, Item::GivenUp(..)));
            reached[2] |= history.iter().any(unhandled);
            reached[3] |= history
                .iter()
                .all(|item| !matches!(item, Item::GivenUp(..)));
        }
    }
    let [noted, given_up, unhandled, calm] = reached;
    assert!(noted, "a lost line is noted in one of them");
    assert!(given_up, "a telegram is given up in one of them");
    assert!(
        unhandled,
        "one is answered and not handled, the first since a giving up"
    );
    assert!(!calm, "the dead time makes each of them give one up");
}

/// Short runs, in which none is given up: answered and handled agree.
#[test]
fn calm_exchanges() {
    let mut program = Scenes::built();
    let mut calm = 0;
    for seed in 100..130 {
        let history = history(&run(&mut program, &SHOWN, 2, seed, 20_000));
        calm += usize::from(!history.iter().any(|item| matches!(item, Item::GivenUp(..))));
        assert!(
            judge(&history).iter().all(|(_, holds)| *holds),
            "seed {seed}"
        );
    }
    assert!(calm > 10, "most of them give none up");
}

/// The polls of demonstrations by the second version: each is the line's own, and comes with the first
/// tick at which T0 has run out.
#[test]
fn polls_come_in_time() {
    let mut seen = [0; 3];
    let lines = [
        (1, [20_000, 20_000], b"BB"),
        (2, [5_000, 5_000], b"B5"),
        (3, [10_000, 20_000], b"Bt"),
    ];
    for ((line, limits, poll), seen) in lines.into_iter().zip(&mut seen) {
        for seed in 0..100 {
            let mut last = 0;
            for thing in by(&Second, line, seed) {
                let Event::Told(_, told, sent) = &thing.event else {
                    continue;
                };
                if *told == Told::Polled(1) {
                    let due = limits.map(|limit: u32| (last + limit).next_multiple_of(50));
                    assert!(due.contains(&thing.now), "{thing:?}");
                    assert_eq!(sent.get(5..7), Some(&poll[..]), "{thing:?}");
                    *seen += 1;
                }
                if !sent.is_empty() {
                    last = thing.now;
                }
            }
        }
    }
    assert!(seen[1] > 50 && seen[2] > 2, "{seen:?}");
}

/// What the judge says of a history, as letters: y or n for each sentence.
fn letters(history: &[Item]) -> String {
    let letter = |(_, holds): &(&str, bool)| if *holds { 'y' } else { 'n' };
    judge(history).iter().map(letter).collect()
}

/// Histories, each of which breaks one sentence.
#[test]
fn judge_sees() {
    use Item::*;
    let a = || "A".to_string();
    let b = || "B".to_string();
    assert_eq!(
        letters(&[Sent(1), Handled(1, a()), Over(1), Answered(1, a(), 1)]),
        "yyyyy"
    );
    assert_eq!(
        letters(&[Sent(1), Handled(1, a()), Again(1), Handled(1, b())]),
        "nyyny"
    );
    assert_eq!(letters(&[Sent(1), Handled(2, a())]), "ynyyy");
    assert_eq!(letters(&[Sent(1), Answered(1, a(), 1)]), "yynny");
    assert_eq!(
        letters(&[Sent(1), Handled(1, a()), Answered(1, b(), 1)]),
        "yynny"
    );
    assert_eq!(
        letters(&[Sent(1), Handled(1, a()), Sent(2), Handled(2, a())]),
        "yyyny"
    );
    assert_eq!(
        letters(&[Sent(1), Handled(1, a()), Again(1), Answered(1, a(), 1)]),
        "yyyyn"
    );
    assert_eq!(
        letters(&[
            Sent(1),
            Handled(1, a()),
            GivenUp(1, 1),
            Sent(2),
            Answered(2, a(), 1)
        ]),
        "yyyyy"
    );
    assert!(!supposed(&[
        Sent(1),
        Handled(1, a()),
        Over(1),
        Noted,
        Again(1),
        Handled(1, b()),
        Over(1)
    ]));
    assert!(supposed(&[Sent(1), Handled(1, a()), Over(1), Noted]));
}
