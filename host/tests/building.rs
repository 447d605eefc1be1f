//! `tools/build` and `tools/input`, in a folder whose name has a space, over a stand-in for `rt`:
//! what they print, and how they stop.

mod machine;

use machine::{copied, program};
use std::fs;
use std::os::unix::fs::symlink;
use std::path::{Path, PathBuf};
use std::process::{Command, Output, Stdio};
use std::time::Duration;

const KIT: &str = "kit of the test";

/// A stand-in for rt: in a crate's folder it takes the crates in order with a pause in each, says what
/// rt says, and fails at the crate in FAILS.
const RT: &str = r#"#!/bin/sh
case $1 in
version) echo "$KIT"; exit ;;
esac
echo begins >>../../turns
for crate in one two three; do
  echo "rt: chose --jobs 2 for $crate" >&2
  echo "a line of the prover on $crate" >&2
  sleep PAUSE &
  echo $! >../../child
  wait
  if [ "$crate" = "$FAILS" ]; then
    echo "fn $crate::main: not proved" >&2
    exit 1
  fi
done
echo ends >>../../turns
mkdir -p out
name=${PWD##*/}
case $1 in
run) echo "the program $name" >out/$name ;;
lib) echo "the archive $name" >out/lib$name.a ;;
esac
"#;

/// A pause of the stand-in, in seconds: none to speak of, or one in which a build on a busy machine is
/// seen at work.
const SHORT: &str = "0.1";
const LONG: &str = "2";

/// A repository of three crates with the tools, and a folder with the stand-in.
fn made(name: &str, pause: &str) -> PathBuf {
    let folder = Path::new(env!("CARGO_TARGET_TMPDIR")).join(name);
    let _ = fs::remove_dir_all(&folder);
    for part in ["tools", "bin", "crates/one", "crates/two", "crates/three"] {
        fs::create_dir_all(folder.join(part)).expect("a folder");
    }
    for tool in ["tools/build", "tools/input"] {
        copied(tool, &folder);
    }
    let kits = format!("{KIT}\nan older kit\n");
    fs::write(folder.join("tools/kit-version"), kits).expect("a file");
    fs::write(
        folder.join("crates.txt"),
        "one:\ntwo: one\nthree staticlib: two\n",
    )
    .expect("a file");
    program(&folder.join("bin/rt"), &RT.replace("PAUSE", pause));
    folder
}

/// The command `tools/build` with words. The stand-in gives this kit as its version, and fails at
/// this crate. A shell cannot catch a signal that was ignored when it began, as some are where the
/// tests run in the background: so these have their usual meaning again.
fn building(folder: &Path, words: &[&str], kit: &str, fails: &str) -> Command {
    let path = std::env::var("PATH").expect("a path");
    let mut command = Command::new("env");
    command
        .arg("--default-signal=INT,TERM,HUP")
        .arg(folder.join("tools/build"))
        .args(words)
        .env("PATH", format!("{}:{path}", folder.join("bin").display()))
        .env("KIT", kit)
        .env("FAILS", fails)
        .env_remove("ANY_KIT");
    command
}

/// What it says.
fn build(folder: &Path, words: &[&str], kit: &str, fails: &str) -> Output {
    let mut command = building(folder, words, kit, fails);
    command.output().expect("it runs")
}

fn text(bytes: &[u8]) -> String {
    String::from_utf8_lossy(bytes).into_owned()
}

/// Checks that a tool printed nothing, said one line, and ended with status 2.
fn stops(output: &Output, line: &str) {
    assert_eq!(text(&output.stderr), format!("{line}\n"));
    assert_eq!(output.status.code(), Some(2));
    assert!(output.stdout.is_empty());
}

#[test]
fn one_line_a_crate() {
    let folder = made("a build", LONG);
    let output = build(&folder, &["check", "three"], KIT, "");
    let lines = "proving 1 of 3: one\nproving 2 of 3: two\nproving 3 of 3: three\n";
    let said = text(&output.stderr);
    assert!(said.starts_with(lines), "{said}");
    let rest = &said[lines.len()..];
    assert!(rest.starts_with("three: all 3 crates are proved, 0 of them earlier ("));
    assert_eq!(text(&output.stdout), "");
    assert!(output.status.success());
    let log = fs::read_to_string(folder.join("target/build.log")).expect("the log");
    assert!(log.contains("a line of the prover on two"), "{log}");
    let made = |path: &str| fs::read_to_string(folder.join("target").join(path));
    assert_eq!(
        made("bin/three").expect("it is made"),
        "the program three\n"
    );
    let output = build(&folder, &["archive", "three"], KIT, "");
    assert!(text(&output.stderr).contains("proving 3 of 3: three\n"));
    assert!(output.status.success());
    let archive = made("staticlib/libthree.a").expect("it is made");
    assert_eq!(archive, "the archive three\n");
}

/// The prover's lines are shown of the crate that fails, and of no other.
#[test]
fn a_crate_that_fails() {
    let folder = made("a build that fails", SHORT);
    let output = build(&folder, &["check", "three"], KIT, "two");
    let said = text(&output.stderr);
    assert!(said.contains("a line of the prover on two\nfn two::main: not proved"));
    assert!(!said.contains("on one"), "{said}");
    assert_eq!(output.status.code(), Some(1));
}

#[test]
fn a_kit_that_is_missing_or_another() {
    let folder = made("a build without a kit", SHORT);
    let output = build(&folder, &["check", "three"], "kit 7", "");
    stops(&output, "build: wanted is the kit 'kit of the test', found is 'kit 7'; ANY_KIT=1 in front of make goes on with it");
    let mut other = building(&folder, &["check", "three"], "kit 7", "");
    let status = other.env("ANY_KIT", "1").output().expect("it runs").status;
    assert!(status.success(), "ANY_KIT=1 takes another kit");
    let older = build(&folder, &["check", "three"], "an older kit", "");
    assert!(older.status.success(), "any kit that is listed is taken");
    stops(
        &build(&folder, &["check"], KIT, ""),
        "usage: tools/build check|archive NAME",
    );
    stops(
        &build(&folder, &["check", "four"], KIT, ""),
        "build: crates.txt lists no crate four",
    );
    // a PATH with little in it, and no rt
    fs::remove_file(folder.join("bin/rt")).expect("it goes");
    for tool in ["cat", "dirname"] {
        let place = ["/usr/bin", "/bin"].map(|folder| Path::new(folder).join(tool));
        let place = place.iter().find(|path| path.exists()).expect(tool);
        symlink(place, folder.join("bin").join(tool)).expect("a link");
    }
    let output = Command::new("/bin/sh")
        .arg(folder.join("tools/build"))
        .args(["check", "three"])
        .env("PATH", folder.join("bin"))
        .output();
    stops(&output.expect("it runs"), "build: rt is not found: install the Rattle kit (kit of the test) and put its bin folder into PATH");
}

/// Two builds in one folder take turns, and the second says that it waits.
#[test]
fn two_builds() {
    let folder = made("two builds", LONG);
    let start = || {
        let mut command = building(&folder, &["check", "three"], KIT, "");
        command.stderr(Stdio::piped()).spawn().expect("it starts")
    };
    let first = start();
    wait_for(&folder.join("turns"));
    let second = start();
    let ended = [first, second].map(|child| child.wait_with_output().expect("it ends"));
    assert!(ended.iter().all(|output| output.status.success()));
    let said = ended.map(|output| text(&output.stderr));
    let waits = "build: another build is at work in this folder; this one waits for it\n";
    assert!(said[1].starts_with(waits) && !said[0].contains(waits));
    let turns = fs::read_to_string(folder.join("turns")).expect("the turns");
    assert_eq!(turns, "begins\nends\nbegins\nends\n");
}

/// A build that is interrupted leaves nothing running, and the next one need not wait.
#[test]
fn an_interrupted_build() {
    for signal in ["INT", "TERM", "HUP"] {
        let folder = made(&format!("a build ended by {signal}"), LONG);
        let mut build = building(&folder, &["check", "three"], KIT, "")
            .stderr(Stdio::null())
            .spawn()
            .expect("it starts");
        wait_for(&folder.join("child"));
        let child = fs::read_to_string(folder.join("child")).expect("a number");
        let stat = Path::new("/proc").join(child.trim()).join("stat");
        // one that has ended and was not asked for has the letter Z there
        let runs = || fs::read_to_string(&stat).is_ok_and(|text| !text.contains(") Z "));
        assert!(runs(), "the prover is at work");
        let number = build.id().to_string();
        let mut kill = Command::new("kill");
        let sent = kill.args(["-s", signal, &number]).status();
        assert!(sent.expect("it is sent").success());
        assert_eq!(build.wait().expect("it ends").code(), Some(130));
        let ended = (0..200).any(|_| {
            std::thread::sleep(Duration::from_millis(50));
            !runs()
        });
        assert!(ended, "{signal} ends the prover too");
        let turns = fs::read_to_string(folder.join("turns")).expect("the turns");
        assert_eq!(turns, "begins\n");
    }
}

/// Waits until a file has something in it.
fn wait_for(file: &Path) {
    let there = (0..200).any(|_| {
        std::thread::sleep(Duration::from_millis(50));
        fs::read(file).is_ok_and(|bytes| bytes.ends_with(b"\n"))
    });
    assert!(there, "{} is written", file.display());
}

#[test]
fn inputs() {
    let folder = made("an input", SHORT);
    fs::write(folder.join("empty"), "").expect("a file");
    let input = |word: &str| {
        let mut tool = Command::new(folder.join("tools/input"));
        let output = tool.arg(word).current_dir(&folder).output();
        output.expect("it runs")
    };
    stops(&input(""), "no file is named: add IN=FILE");
    stops(&input("no file"), "there is no file 'no file'");
    stops(&input("tools"), "'tools' is a folder: name a file in it");
    stops(&input("empty"), "the file 'empty' is empty");
    assert!(input("crates.txt").status.success());
}
