//! The panel and the bench of `examples/` on lines of their own, and programs that are not there.
//! Where the machine lacks something a test says so in one line and passes.

mod compiling;
mod machine;

use compiling::{build, run, said, talker, C99, DATA};
use std::fs;
use std::io::{BufRead, BufReader, Write};
use std::path::Path;
use std::process::{Child, Command, Stdio};
use std::time::Duration;

/// A panel on a pseudo-terminal of its own. It is ended with the test.
struct Panel(Child);

impl Panel {
    fn started(program: &Path, rows: &[&str]) -> Panel {
        let mut command = Command::new(program);
        command.arg("-").args(rows);
        command.stdin(Stdio::piped()).stdout(Stdio::piped());
        Panel(command.spawn().expect("the panel starts"))
    }

    /// Types rows and answers so many lines that it prints, without their times.
    fn typed(&mut self, rows: &str, lines: usize) -> Vec<String> {
        let keyboard = self.0.stdin.as_mut().expect("a pipe");
        keyboard.write_all(rows.as_bytes()).expect("it is taken");
        let printed = self.0.stdout.as_mut().expect("a pipe");
        let printed = BufReader::with_capacity(1, printed).lines().take(lines);
        let words = |line: String| line.split_once("  panel  ").map(|(_, words)| words.into());
        printed
            .map(|line| line.expect("a line"))
            .map(|line| words(line.clone()).unwrap_or(line))
            .collect()
    }

    /// How often it has gone to sleep.
    fn sleeps(&self) -> u32 {
        let status = fs::read_to_string(format!("/proc/{}/status", self.0.id()));
        let status = status.expect("its status");
        let mut lines = status.lines();
        let count = lines.find_map(|line| line.strip_prefix("voluntary_ctxt_switches:"));
        count.and_then(|n| n.trim().parse().ok()).expect("a number")
    }
}

impl Drop for Panel {
    fn drop(&mut self) {
        let _ = self.0.kill();
        let _ = self.0.wait();
    }
}

/// The ninth row is refused 17 and leaves nothing set; `look` shows what waits and is set, and `clear` takes it back.
#[test]
fn rows_typed_at_the_panel() {
    let Some(program) = talker("panel-rows", "panel.c") else {
        return;
    };
    let mut panel = Panel::started(&program, &[DATA]);
    let first = panel.typed("", 2);
    assert!(first[0].starts_with("the far end is "), "{first:?}");
    assert_eq!(first[1], "queues B L125%090H120R88");
    let rows: String = (1..=8).map(|n| format!("B {n} 2 3 0\n")).collect();
    let printed = panel.typed(&rows, 8);
    assert_eq!(printed[6], "queues B L007%002H003R00");
    let full = "typed  refused 17, the desk's queue is full: eight records wait";
    assert_eq!(printed[7], full);
    let printed = panel.typed("look\n", 9);
    let look = "looks  line lost, last number 0, 8 of 8 records wait, set for r: B L007%002H003R00";
    assert_eq!(printed[0], look);
    assert_eq!(printed[1], "waits  B L125%090H120R88");
    assert_eq!(printed[8], "waits  B L007%002H003R00");
    let printed = panel.typed("clear\nlook\nB 1 2\n", 3);
    assert_eq!(
        printed,
        [
            "clears nothing waits, and nothing is set for r",
            "looks  line lost, last number 0, 0 of 8 records wait, set for r: nothing",
            "typed  no record: B has 4 values, L % H R, and this row has 2"
        ]
    );
}

/// The panel of a lost line has nothing due: it sleeps until something comes, and does not wake meanwhile.
#[test]
fn the_panel_sleeps() {
    let Some(program) = talker("panel-sleeps", "panel.c") else {
        return;
    };
    let mut panel = Panel::started(&program, &[]);
    panel.typed("look\n", 2);
    std::thread::sleep(Duration::from_millis(300));
    let before = panel.sleeps();
    std::thread::sleep(Duration::from_millis(700));
    assert_eq!(panel.sleeps(), before);
}

/// A program that is not there is said, and ends the try.
#[test]
fn a_missing_program_ends_the_try() {
    let programs =
        [("try-missing", "try.c"), ("panel-alone", "panel.c")].map(|(n, e)| talker(n, e));
    let [Some(tried), Some(panel)] = programs else {
        return;
    };
    let panel = panel.to_str().expect("a path");
    for words in [["/no/panel", "/no/bench"], [panel, "/no/bench"]] {
        let output = run(&tried, &words, b"");
        let missing = words.iter().find(|word| word.starts_with("/no/"));
        let line = format!(
            "try: {}: No such file or directory\n",
            missing.expect("one")
        );
        let errors = String::from_utf8_lossy(&output.stderr).into_owned();
        assert!(errors.ends_with(&line), "{errors}");
        assert_eq!(output.status.code(), Some(1));
        assert!(!said(&output).contains("try: "));
    }
}

/// A bench without an answer gives up, says so, and fails; so does one on a file that is no serial device.
#[test]
fn the_bench_fails_without_an_answer() {
    let Some(bench) = build(&C99, "bench-alone", "bench.c", true) else {
        return;
    };
    let output = run(&bench, &["/dev/null", "t t"], b"");
    assert!(!output.status.success());
    assert!(String::from_utf8_lossy(&output.stderr).contains("/dev/null"));
    assert!(!run(&bench, &[], b"").status.success());
    if Path::new("/dev/ptmx").exists() {
        let output = run(&bench, &["-", "t t", "B 1 2 3 0", "?"], b"");
        let said = said(&output);
        assert!(!output.status.success());
        assert!(
            said.contains("given up: no answer came, and the line is noted lost, sendings 3"),
            "{said}"
        );
        assert_eq!(
            said.matches("typed  refused 12, this end does not send")
                .count(),
            2,
            "{said}"
        );
    }
}
