//! `tools/edits` over a stand-in for `rt`: which edits it lets pass, and what it says of the others.

mod machine;

use machine::{copied, program};
use std::fs;
use std::path::{Path, PathBuf};
use std::process::Command;

/// A stand-in for `rt must-fail`: what it says of an edit goes by a word in the edit.
const RT: &str = r#"#!/bin/sh
[ "$1" = must-fail ] || exit 2
at="rt: must-fail upper/tried.edit:"
case $(cat crates/upper/must-fail/tried.edit) in
*wrong*) echo "$at refused, as it must be: note: src/lib.rt:3:5: it is not proved that what the function ensures holds" ;;
*unnamed*) echo "$at refused, as it must be (only because a proof file names what the edit took away): ./proofs/one/Answers.antt:3:5: error" ;;
*long*) echo "$at refused, as it must be (only by a limit of the prover, which gave no verdict): ./proofs/one/Answers.antt:3:5: error" ;;
*senseless*) echo "$at BAD EDIT: the prover cannot read the edited text, so no contract was tried: specs/One.antt:3:5: error" ;;
*absent*) echo "$at BAD EDIT: an 'old:' text is in src/lib.rt 0 times, and not once" ;;
*twice*) echo "$at BAD EDIT: an 'old:' text is in src/lib.rt 2 times, and not once" ;;
*empty*) echo "$at BAD EDIT: it has no 'old:' and 'new:' pair" ;;
*broken*) echo "$at BAD EDIT: it did not reach the prover" ;;
*killed*) echo "$at NOT TRIED: its check was killed, most likely for memory" ;;
*silent*) ;;
*) echo "$at NOT REFUSED: the crate is still proved with this edit" ;;
esac
echo "1 passed, 0 failed"
"#;

/// A repository of two crates. It goes with the test: rt would look through its crates too.
struct Made(PathBuf);

impl std::ops::Deref for Made {
    type Target = Path;

    fn deref(&self) -> &Path {
        &self.0
    }
}

impl Drop for Made {
    fn drop(&mut self) {
        let _ = fs::remove_dir_all(&self.0);
    }
}

/// Such a repository, the upper crate with an edit of this new text.
fn made(name: &str, new: &str) -> Made {
    let folder = Path::new(env!("CARGO_TARGET_TMPDIR")).join(format!("edits {name}"));
    let _ = fs::remove_dir_all(&folder);
    for part in ["bin", "tools", "crates/below", "crates/upper/must-fail"] {
        fs::create_dir_all(folder.join(part)).expect("a folder");
    }
    copied("tools/edits", &folder);
    program(&folder.join("bin/rt"), RT);
    let edit =
        format!("# upper::one, B1: an edit\nfile: src/lib.rt\nold: right once\nnew: {new}\n");
    for (file, text) in [
        (
            "crates.txt",
            "# two crates\nupper staticlib: below\nbelow:\n",
        ),
        ("crates/upper/must-fail/tried.edit", &edit),
    ] {
        fs::write(folder.join(file), text).expect("a file");
    }
    Made(folder)
}

/// The last line that the tool prints, what it says before that, and whether it ended well.
fn tried(folder: &Path, words: &[&str]) -> (String, String, bool) {
    let path = std::env::var("PATH").expect("a path");
    let output = Command::new(folder.join("tools/edits"))
        .args(words)
        .env("PATH", format!("{}:{path}", folder.join("bin").display()))
        .output()
        .expect("it runs");
    let text = String::from_utf8_lossy(&output.stdout).into_owned();
    let (said, last) = text.trim_end().rsplit_once('\n').unwrap_or(("", &text));
    (last.trim_end().into(), said.into(), output.status.success())
}

#[test]
fn a_wrong_program_is_refused() {
    let folder = made("refused", "wrong once");
    for words in [&[][..], &["upper"]] {
        let (last, said, well) = tried(&folder, words);
        assert_eq!(last, "1 passed, 0 failed", "{said}");
        assert!(well);
    }
}

/// What an edit must not be: right, no edit at all, or refused for another reason than a fact that no longer holds.
#[test]
fn no_other_edit_passes() {
    for (new, why) in [
        ("right", "NOT REFUSED"),
        ("unnamed", "BAD EDIT"),
        ("long", "BAD EDIT"),
        ("senseless", "BAD EDIT"),
        ("absent", "BAD EDIT"),
        ("twice there", "BAD EDIT"),
        ("empty", "BAD EDIT"),
        ("broken", "BAD EDIT"),
        ("killed", "NOT TRIED"),
        ("silent", "NOT TRIED"),
    ] {
        let (last, said, well) = tried(&made(new, new), &[]);
        assert_eq!(last, "0 passed, 1 failed", "{new}: {said}");
        assert!(said.contains("edits: upper/tried.edit: "), "{said}");
        assert!(said.contains(why), "{said}");
        assert!(!well, "{new}");
    }
}

/// What the gate has said already is not asked again.
#[test]
fn what_was_said_is_judged() {
    let folder = made("said", "right");
    let said = folder.join("words");
    let line = "rt: must-fail upper/tried.edit: refused, as it must be: note: src/lib.rt:1:1: it is not proved\n";
    fs::write(&said, line).expect("a file");
    let words = ["--said", said.to_str().expect("a path")];
    assert_eq!(tried(&folder, &words).0, "1 passed, 0 failed");
}

/// The edits of a crate that is not proved are not tried, and so they fail.
#[test]
fn a_crate_must_be_proved() {
    let folder = made("unproved", "wrong once");
    let said = folder.join("words");
    fs::write(&said, "rt: upper NOT PROVED\n").expect("a file");
    let words = ["--said", said.to_str().expect("a path")];
    let (last, text, well) = tried(&folder, &words);
    assert_eq!(last, "0 passed, 1 failed", "{text}");
    assert!(text.contains("upper/tried.edit: NOT TRIED"), "{text}");
    assert!(!well);
}

/// A crate without edits has none to try.
#[test]
fn a_crate_without_edits() {
    let folder = made("none", "wrong once");
    assert_eq!(tried(&folder, &["below"]).0, "0 passed, 0 failed");
}
