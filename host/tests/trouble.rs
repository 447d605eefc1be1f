//! What the programs `listing` and `replay` do where reading or writing fails, or is not ready: they
//! say so on standard error, and `tools/run` ends with status 1. So do the programs as installed.

use host::programs::built::{built, command};
use host::second::listing::listing;
use host::second::replay::replay;
use std::fs::File;
use std::io::{Read, Write};
use std::os::fd::OwnedFd;
use std::os::unix::net::UnixStream;
use std::path::{Path, PathBuf};
use std::process::{Command, Output, Stdio};
use std::time::Duration;

/// A path in the repository.
fn repository(path: &str) -> PathBuf {
    Path::new(env!("CARGO_MANIFEST_DIR")).join("..").join(path)
}

/// The programs that read an input of any length.
const PROGRAMS: [&str; 2] = ["listing", "replay"];

/// The command that runs a program.
fn program(name: &str) -> Command {
    command(built(name))
}

/// A sample for a program, as standard input.
fn sample(name: &str) -> Stdio {
    let file = match name {
        "replay" => "samples/school.log",
        _ => "samples/line1.cap",
    };
    File::open(repository(file))
        .expect("the sample is there")
        .into()
}

/// An input of this many telegrams for a program, and what it prints for it.
fn telegrams(name: &str, count: usize) -> (Vec<u8>, String) {
    let made = |record: &[u8]| [b"3", record.repeat(count).as_slice()].concat();
    let (input, prints) = match name {
        "replay" => {
            let input = made(b"M>\0\0\0\x05\x0A\n08t0Bt3E\r");
            let prints = replay(&input);
            (input, prints)
        }
        _ => {
            let input = made(b"\n08A0AAA5\r");
            let prints = listing(&input);
            (input, prints)
        }
    };
    assert_eq!(prints.lines().count(), count);
    (input, prints)
}

/// Checks that nothing was printed, that standard error has these words, and that the status is 1.
fn says(output: &Output, words: &str) {
    assert_eq!(String::from_utf8_lossy(&output.stderr), words);
    assert_eq!(output.status.code(), Some(1));
    assert!(output.stdout.is_empty());
}

/// Runs a program from a shell that closes one of its descriptors.
fn with_closed(name: &str, redirection: &str) -> Output {
    let run = program(name);
    Command::new("sh")
        .args(["-c", &format!("exec \"$0\" \"$@\" {redirection}")])
        .arg(run.get_program())
        .args(run.get_args())
        .stdin(sample(name))
        .output()
        .expect("the shell runs")
}

#[test]
fn input_that_cannot_be_read() {
    for name in PROGRAMS {
        let folder = File::open(repository("samples")).expect("the folder is opened");
        let output = program(name).stdin(folder).output().expect("it runs");
        says(&output, &format!("{name}: reading: Is a directory\n"));
        let closed = with_closed(name, "<&-");
        says(&closed, &format!("{name}: reading: Bad file descriptor\n"));
    }
}

#[test]
fn output_that_cannot_be_written() {
    for name in PROGRAMS {
        let full = File::options().write(true).open("/dev/full");
        let output = program(name)
            .stdin(sample(name))
            .stdout(full.expect("/dev/full is there"))
            .stderr(Stdio::piped())
            .spawn()
            .and_then(|child| child.wait_with_output())
            .expect("it runs");
        let trouble = format!("{name}: writing: No space left on device\n");
        says(&output, &trouble);
        let closed = with_closed(name, ">&-");
        says(&closed, &format!("{name}: writing: Bad file descriptor\n"));
    }
}

/// When its reader goes away a signal ends a program, and `tools/run` passes its status on.
#[test]
fn reader_that_goes_away() {
    for name in PROGRAMS {
        let mut child = program(name)
            .stdin(Stdio::piped())
            .stdout(Stdio::piped())
            .spawn()
            .expect("it starts");
        drop(child.stdout.take());
        let mut input = child.stdin.take().expect("its input is a pipe");
        let _ = input.write_all(&telegrams(name, 60_000).0);
        drop(input);
        let status = child.wait().expect("it is waited for");
        assert_eq!(status.code(), Some(128 + 13), "SIGPIPE");
    }
}

/// An output that is not ready for most of the time gets every line.
#[test]
fn output_that_is_not_ready() {
    for name in PROGRAMS {
        let (input, prints) = telegrams(name, 60_000);
        let (mut ours, theirs) = UnixStream::pair().expect("a pair");
        theirs.set_nonblocking(true).expect("it does not wait");
        let mut child = program(name)
            .stdin(Stdio::piped())
            .stdout(OwnedFd::from(theirs))
            .stderr(Stdio::piped())
            .spawn()
            .expect("it starts");
        let mut pipe = child.stdin.take().expect("its input is a pipe");
        let feeding = std::thread::spawn(move || pipe.write_all(&input));
        let (mut printed, mut piece) = (Vec::<u8>::new(), [0; 50_000]);
        loop {
            std::thread::sleep(Duration::from_millis(5));
            match ours.read(&mut piece).expect("it is read") {
                0 => break,
                n => printed.extend(&piece[..n]),
            }
        }
        feeding.join().expect("it ends").expect("all is taken");
        let output = child.wait_with_output().expect("it is waited for");
        assert_eq!(String::from_utf8_lossy(&output.stderr), "");
        assert_eq!(output.status.code(), Some(0));
        assert!(printed == prints.as_bytes(), "all lines arrive");
    }
}

/// An input that has no bytes for most of the time is read to its end.
#[test]
fn input_that_is_not_ready() {
    for name in PROGRAMS {
        let (input, prints) = telegrams(name, 2_000);
        let (mut ours, theirs) = UnixStream::pair().expect("a pair");
        theirs.set_nonblocking(true).expect("it does not wait");
        let child = program(name)
            .stdin(OwnedFd::from(theirs))
            .stdout(Stdio::piped())
            .stderr(Stdio::piped())
            .spawn()
            .expect("it starts");
        for piece in input.chunks(1_001) {
            std::thread::sleep(Duration::from_millis(5));
            ours.write_all(piece).expect("it is taken");
        }
        drop(ours);
        let output = child.wait_with_output().expect("it is waited for");
        assert_eq!(String::from_utf8_lossy(&output.stderr), "");
        assert_eq!(output.status.code(), Some(0));
        assert!(output.stdout == prints.as_bytes(), "all is read");
    }
}

/// Programs as `make install` installs them: their status is 0, 1 on trouble, 2 on an argument.
#[test]
fn installed_programs() {
    let root = Path::new(env!("CARGO_TARGET_TMPDIR")).join("a root");
    let _ = std::fs::remove_dir_all(&root);
    let prefix = root.join("usr/local");
    for name in ["listing", "replay", "scenes"] {
        let status = Command::new(repository("tools/install-program"))
            .arg(built(name))
            .args([prefix.join("bin"), prefix.join("libexec")])
            .status();
        assert!(status.expect("it runs").success());
        let installed = |word: Option<&str>, to: Stdio| {
            let mut program = Command::new(prefix.join("bin").join(name));
            program.args(word).stdin(sample(name)).stdout(to);
            let output = program.stderr(Stdio::piped()).output().expect("it runs");
            let words = String::from_utf8_lossy(&output.stderr).into_owned();
            (output.status.code(), words)
        };
        assert_eq!(installed(None, Stdio::null()), (Some(0), String::new()));
        let full = File::options().write(true).open("/dev/full");
        let (status, words) = installed(None, full.expect("/dev/full is there").into());
        assert_eq!(status, Some(1), "{words}");
        assert!(words.starts_with(&format!("{name}: writing: No space left on device\n")));
        let (status, words) = installed(Some("--help"), Stdio::null());
        assert_eq!(status, Some(2));
        assert!(words.starts_with(&format!("usage: {name} < ")), "{words}");
    }
}
