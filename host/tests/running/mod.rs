//! Runs a built program on inputs and compares what it prints, byte for byte, with the second
//! version: the listing by rules P1 to P5, and the replay.

// Each test file uses a part of this module.
#![allow(dead_code)]

use host::programs::built::{built, started};
use host::second::listing::listing;
use host::second::replay::replay;
use std::fs::{self, File};
use std::io::{ErrorKind, Write};
use std::path::{Path, PathBuf};
use std::process::{ChildStdin, Stdio};
use std::time::Duration;

/// The sample of rule P4: digit 3 and the telegrams of cases a and i.
pub const SAMPLE: &[u8] = b"3\n08A0AAA5\r\n08A0AAA6\r";

/// A built program and what the second version says that it prints.
pub struct Built {
    name: &'static str,
    second: fn(&[u8]) -> String,
}

pub const LISTING: Built = Built {
    name: "listing",
    second: listing,
};

pub const REPLAY: Built = Built {
    name: "replay",
    second: replay,
};

/// A file for a test of this name in cargo's folder for such files.
fn file_for(name: &str) -> PathBuf {
    Path::new(env!("CARGO_TARGET_TMPDIR")).join(format!("{}.cap", name.replace(' ', "-")))
}

impl Built {
    /// The program's path: that in the environment variable of its name in capitals, taken from the
    /// crate's folder, else where it is built.
    fn path(&self) -> PathBuf {
        match std::env::var_os(self.name.to_uppercase()) {
            Some(named) => Path::new(env!("CARGO_MANIFEST_DIR")).join(named),
            None => built(self.name),
        }
    }

    /// What the program prints when standard input is given or fed from another thread; it must
    /// end by itself and print nothing to standard error.
    fn printed(
        &self,
        stdin: Stdio,
        feed: impl FnOnce(ChildStdin) -> std::io::Result<()> + Send,
    ) -> Vec<u8> {
        let mut child = started(&self.path())
            .stdin(stdin)
            .stdout(Stdio::piped())
            .stderr(Stdio::piped())
            .spawn()
            .expect("the program starts");
        let pipe = child.stdin.take();
        let output = std::thread::scope(|scope| {
            let feeding = scope.spawn(move || pipe.map_or(Ok(()), feed));
            let output = child.wait_with_output().expect("the program is waited for");
            match feeding.join().expect("the feeding thread ends") {
                Err(error) if error.kind() != ErrorKind::BrokenPipe => panic!("feeding: {error}"),
                _ => output,
            }
        });
        let complaint = String::from_utf8_lossy(&output.stderr);
        assert_eq!(complaint, "", "standard error is to be empty");
        assert!(output.status.code().is_some(), "ended by a signal");
        output.stdout
    }

    /// Compares the printed bytes with the second version. Where they differ it keeps the input in
    /// a file and shows the first line that differs.
    fn agree(&self, name: &str, input: &[u8], printed: Vec<u8>) -> String {
        let wanted = (self.second)(input);
        if printed == wanted.as_bytes() {
            return wanted;
        }
        let kept = file_for(&format!("differs in {name}"));
        fs::write(&kept, input).expect("the input is kept");
        let printed = String::from_utf8_lossy(&printed);
        let (mut got, mut want) = (printed.split('\n'), wanted.split('\n'));
        let mut line = 0;
        let (got, want) = loop {
            line += 1;
            let pair = (got.next(), want.next());
            if pair.0 != pair.1 || pair == (None, None) {
                break pair;
            }
        };
        let kept = kept.display();
        panic!("{name}: line {line} is {got:?}, wanted {want:?}; the input is in {kept}");
    }

    /// Feeds an input through a pipe and answers the text on which both agree.
    pub fn compare(&self, name: &str, input: &[u8]) -> String {
        let bytes = self.printed(Stdio::piped(), |mut pipe| pipe.write_all(input));
        self.agree(name, input, bytes)
    }

    /// Gives an input as a file, so that the program's reads are full, and answers the text.
    pub fn compare_from_file(&self, name: &str, input: &[u8]) -> String {
        let path = file_for(name);
        fs::write(&path, input).expect("the input file is written");
        let file = File::open(&path).expect("the input file is opened");
        let bytes = self.printed(Stdio::from(file), |_| Ok(()));
        self.agree(name, input, bytes)
    }

    /// Feeds an input in small writes of random sizes, with a flush and a rest after each, and
    /// answers the text.
    pub fn compare_slowly(
        &self,
        name: &str,
        input: &[u8],
        rest: Duration,
        mut size: impl FnMut() -> usize + Send,
    ) -> String {
        let bytes = self.printed(Stdio::piped(), |mut pipe| {
            let mut left = input;
            while !left.is_empty() {
                let (piece, behind) = left.split_at(size().clamp(1, left.len()));
                pipe.write_all(piece)?;
                pipe.flush()?;
                std::thread::sleep(rest);
                left = behind;
            }
            Ok(())
        });
        self.agree(name, input, bytes)
    }

    /// What the program prints for a beginning, a piece repeated, and an end.
    pub fn printed_for(&self, begin: &[u8], piece: &[u8], times: usize, end: &[u8]) -> Vec<u8> {
        self.printed(Stdio::piped(), |mut pipe| {
            pipe.write_all(begin)?;
            for _ in 0..times {
                pipe.write_all(piece)?;
            }
            pipe.write_all(end)
        })
    }
}

/// The line digit and then the parts.
pub fn on_line(line: u8, parts: &[&[u8]]) -> Vec<u8> {
    [&[b'0' + line], parts.concat().as_slice()].concat()
}
