//! The log of a demonstration: with an idle panel it replays to the same handled telegrams and answers.

mod running;

use host::comparing::linked::library;
use host::line::demand::{history, Item};
use host::line::demo::run;
use host::line::ends::Ends;
use host::line::faced::BothEnds;
use host::line::log::{school, written};
use host::line::odds::{IDLE, SHOWN};
use host::programs::built::built;
use host::programs::scenes::Scenes;
use host::second::desk::{Hearing, Refusal};
use host::second::logs::{entries, Mark};
use host::second::master::Told;
use host::second::records::Record;
use host::second::replay::{replay, told};
use host::second::words::ticked;
use host::second::Second;
use running::REPLAY;
use std::path::{Path, PathBuf};
use std::process::Command;

/// A path in the repository.
fn repository(path: &str) -> PathBuf {
    Path::new(env!("CARGO_MANIFEST_DIR")).join("..").join(path)
}

/// Ends that keep what their desk did: the time and the words of each hearing, and of each tick
/// that noted the line lost.
struct Kept<E> {
    ends: E,
    line: u8,
    did: Vec<String>,
}

impl<E: Ends> Ends for Kept<E> {
    fn desk_tick(&mut self, now: u32) -> Result<bool, Refusal> {
        let answer = self.ends.desk_tick(now);
        if answer != Ok(false) {
            self.did.push(format!("{now} {}", ticked(answer)));
        }
        answer
    }

    fn desk_hear(&mut self, now: u32, room: usize, frame: &[u8]) -> Result<Hearing, Refusal> {
        let answer = self.ends.desk_hear(now, room, frame);
        let words = told(self.line, frame, answer.clone());
        self.did.push(format!("{now} {words}"));
        answer
    }

    fn start(&mut self, line: u8, now: u32) {
        self.line = line;
        self.ends.start(line, now);
    }

    fn desk_queue(&mut self, record: &Record) -> Result<(), Refusal> {
        self.ends.desk_queue(record)
    }

    fn desk_set(&mut self, record: &Record) -> Result<(), Refusal> {
        self.ends.desk_set(record)
    }

    fn desk_key(&mut self, key: u8) -> Result<(), Refusal> {
        self.ends.desk_key(key)
    }

    fn master_offer(&mut self, now: u32, room: usize, record: &Record) -> (Told, Vec<u8>) {
        self.ends.master_offer(now, room, record)
    }

    fn master_tick(&mut self, now: u32, room: usize) -> (Told, Vec<u8>) {
        self.ends.master_tick(now, room)
    }

    fn master_hear(&mut self, now: u32, room: usize, frame: &[u8]) -> (Told, Vec<u8>) {
        self.ends.master_hear(now, room, frame)
    }
}

/// What a run's desk did, the answers that it made for telegrams that it handled, and the run's log.
fn shown(ends: impl Ends, line: u8, seed: u64) -> (Vec<String>, Vec<String>, Vec<u8>) {
    let did = Vec::new();
    let mut kept = Kept { ends, line, did };
    let happened = run(&mut kept, &IDLE, line, seed, 90_000);
    let handled = history(&happened)
        .into_iter()
        .filter_map(|item| match item {
            Item::Handled(_, answer) => Some(answer),
            _ => None,
        });
    let answers = handled.collect();
    let file = written(library().unwrap_or(&Second), line, &happened);
    let second = written(&Second, line, &happened);
    assert_eq!(file, second, "both write the same");
    (kept.did, answers, file)
}

/// The rows of a replay from their times on, but for hits that did nothing.
fn replayed(rows: &str) -> Vec<&str> {
    let behind = rows.lines().filter_map(|row| row.splitn(3, ' ').nth(2));
    behind.filter(|row| !row.ends_with(" done")).collect()
}

/// What the desk did and what the replay prints are the same, one by one.
fn same((did, answers, file): (Vec<String>, Vec<String>, Vec<u8>), rows: &str, name: &str) {
    let again = replayed(rows);
    for (one, other) in did.iter().zip(&again) {
        assert_eq!(one, other, "{name}");
    }
    assert_eq!(did.len(), again.len(), "{name}");
    let handled = again.iter().filter(|row| row.contains("handled, "));
    let made = handled.filter_map(|row| row.rsplit(' ').next());
    assert!(made.eq(answers.iter().map(String::as_str)), "{name}");
    let (found, refused) = entries(&file[1..]);
    assert_eq!(refused, None, "{name}");
    // what the desk sends stands behind what it heard
    for ((_, one), (_, next)) in found.iter().zip(found.iter().skip(1)) {
        let behind = one.mark == Mark::Master && one.time == next.time;
        assert!(next.mark != Mark::Slave || behind, "{name}");
    }
}

/// Runs from many seeds, by the second version and, where it is linked, by the library.
#[test]
fn a_log_replays() {
    for seed in 0..40 {
        for line in 1..=3 {
            let name = format!("line {line}, seed {seed}");
            let run = shown(BothEnds::new(&Second), line, seed);
            let rows = replay(&run.2);
            if let Ok(face) = library() {
                assert_eq!(shown(BothEnds::new(face), line, seed), run, "{name}");
            }
            same(run, &rows, &name);
        }
    }
}

/// Runs of the program `scenes`, replayed by the program `replay`.
#[test]
fn a_log_replays_by_the_programs() {
    for line in 1..=3 {
        let name = format!("log of line {line}");
        let run = shown(Scenes::built(), line, 656);
        let rows = REPLAY.compare(&name, &run.2);
        same(run, &rows, &name);
    }
}

/// The kept log is that of the demonstration, and has a lost answer, a hit, a fault and a lost line.
#[test]
fn the_kept_log() {
    let kept = std::fs::read(repository("samples/school.log")).expect("it is read");
    assert_eq!(kept, school());
    assert!(kept.len() < 2_048);
    let rows = REPLAY.compare("the kept log", &kept);
    for what in [
        "repeat, ",
        " done\n",
        "fault, ",
        " line noted lost\n",
        "silent, ",
    ] {
        assert!(rows.contains(what), "{what}");
    }
    let file = Path::new(env!("CARGO_TARGET_TMPDIR")).join("demo.log");
    let mut demo = Command::new(env!("CARGO_BIN_EXE_demo"));
    demo.args(["1", "2491", "90"]).arg(built("scenes"));
    let output = demo.arg(&file).arg("idle").output().expect("it runs");
    assert!(output.status.success());
    assert_eq!(std::fs::read(&file).expect("a log"), kept);
    let said = String::from_utf8_lossy(&output.stdout);
    for what in ["the answer is lost", "the sending is hit"] {
        assert!(said.contains(what), "{what}");
    }
    assert!(!said.contains("  P  "), "the panel does nothing");
}

/// A busy panel: its records are in the answers of the run, and not in those of a fresh desk.
#[test]
fn a_busy_panel() {
    let happened = run(&mut BothEnds::new(&Second), &SHOWN, 1, 33, 90_000);
    let queued = |item: &Item| matches!(item, Item::Handled(_, answer) if answer.contains("%"));
    assert!(history(&happened).iter().any(queued));
    assert!(!replay(&written(&Second, 1, &happened)).contains('%'));
}

/// What is asked of PANEL, and a log that cannot be written.
#[test]
fn asked_for() {
    for (log, panel, trouble) in [
        ("", "busy", "PANEL is idle or nothing, not 'busy'"),
        (
            "no/folder",
            "",
            "no/folder: No such file or directory (os error 2)",
        ),
    ] {
        let mut demo = Command::new(env!("CARGO_BIN_EXE_demo"));
        demo.args(["1", "33", "1"]).arg(built("scenes"));
        let output = demo.args([log, panel]).output().expect("it runs");
        assert_eq!(output.status.code(), Some(2));
        let said = String::from_utf8_lossy(&output.stderr).into_owned();
        assert_eq!(said, format!("demo: {trouble}\n"));
        assert!(output.stdout.is_empty());
    }
}
