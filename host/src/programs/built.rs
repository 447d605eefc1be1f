//! Finding and running the built programs.

use std::collections::BTreeMap;
use std::ffi::OsStr;
use std::io::Write;
use std::path::{Path, PathBuf};
use std::process::{Command, Stdio};
use std::sync::Mutex;

/// The built program of this name. rt compiles it for x86-64.
pub fn built(name: &str) -> PathBuf {
    let folder = Path::new(env!("CARGO_MANIFEST_DIR")).join("../target/bin");
    let path = folder.join(name);
    let there = path.is_file();
    assert!(there, "{name} is not built: run tools/build check {name}");
    path
}

/// The command that runs a built program: by `tools/run`, which knows what the machine needs.
pub fn command(path: impl AsRef<OsStr>) -> Command {
    let mut command = Command::new(concat!(env!("CARGO_MANIFEST_DIR"), "/../tools/run"));
    command.arg(path);
    command
}

/// The command that starts a built program itself, without the shell and the status of `tools/run`:
/// for comparisons, which start it thousands of times. What must stand before it is asked once.
pub fn started(path: &Path) -> Command {
    static BEFORE: Mutex<BTreeMap<PathBuf, Vec<String>>> = Mutex::new(BTreeMap::new());
    let mut known = BEFORE.lock().expect("no test broke it");
    let words = known.entry(path.into()).or_insert_with(|| {
        let asked = command("--before").arg(path).output();
        let asked = asked.expect("tools/run runs");
        assert!(asked.status.success(), "tools/run knows the program");
        let words = String::from_utf8(asked.stdout).expect("it says text");
        words.lines().map(Into::into).collect()
    });
    let Some((first, more)) = words.split_first() else {
        return Command::new(path);
    };
    let mut command = Command::new(first);
    command.args(more).arg(path);
    command
}

/// What the built program of this name says of an input.
pub fn said(name: &str, input: &str) -> String {
    let mut child = command(built(name))
        .stdin(Stdio::piped())
        .stdout(Stdio::piped())
        .spawn()
        .expect("the program starts");
    let mut pipe = child.stdin.take().expect("its input is a pipe");
    std::thread::scope(|scope| {
        scope.spawn(move || pipe.write_all(input.as_bytes()));
        let output = child.wait_with_output().expect("it is waited for");
        assert!(output.status.success(), "it ends well");
        String::from_utf8(output.stdout).expect("it says text")
    })
}
