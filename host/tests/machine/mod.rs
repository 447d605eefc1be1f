//! What tests of the examples and the manual ask of the machine and the repository.

// Each test file uses a part of this module.
#![allow(dead_code)]

use std::collections::BTreeSet;
use std::fs;
use std::io::Write;
use std::path::{Path, PathBuf};
use std::process::{Command, Stdio};
use std::sync::Mutex;

/// A path in the repository.
pub fn repository(path: &str) -> PathBuf {
    Path::new(env!("CARGO_MANIFEST_DIR")).join("..").join(path)
}

pub fn text(path: &str) -> String {
    fs::read_to_string(repository(path)).expect(path)
}

/// Writes a file that may run. `install` writes it, and not this process: what this process has open
/// for writing is open in each child that another test starts meanwhile, and a file that is open for
/// writing does not run.
pub fn program(path: &Path, text: &str) {
    let mut install = Command::new("install")
        .args(["-m", "755", "/dev/stdin"])
        .arg(path)
        .stdin(Stdio::piped())
        .spawn()
        .expect("install starts");
    let mut input = install.stdin.take().expect("a pipe");
    input.write_all(text.as_bytes()).expect("it is taken");
    drop(input);
    assert!(install.wait().expect("install ends").success());
}

/// Copies a file of the repository that may run to the same path in a folder.
pub fn copied(path: &str, folder: &Path) {
    program(&folder.join(path), &text(path));
}

/// Says once why tests do nothing. It writes past the test runner, which hides what a passed test
/// prints.
pub fn skipped(why: &str) {
    static SAID: Mutex<BTreeSet<String>> = Mutex::new(BTreeSet::new());
    if SAID.lock().expect("no test broke it").insert(why.into()) {
        let _ = writeln!(std::io::stderr(), "skipped: {why}");
    }
}

/// True where the machine has a command.
pub fn has(command: &str) -> bool {
    let found = Command::new(command)
        .arg("--version")
        .stdout(Stdio::null())
        .stderr(Stdio::null())
        .status();
    if found.is_err() {
        skipped(&format!("{command} is not installed"));
    }
    found.is_ok()
}
