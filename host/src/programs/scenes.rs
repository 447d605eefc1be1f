//! The program `scenes`, asked a row at a time (docs/SCENES.md): its two ends.

use crate::line::ends::Ends;
use crate::programs::answers::{done_in, hearing_in, telling_in, ticked_in};
use crate::programs::built::{built, command};
use crate::second::desk::{Hearing, Refusal};
use crate::second::master::Told;
use crate::second::records::Record;
use crate::second::words::{done, hearing, in_row, output, shown, ticked, told};
use std::ffi::OsStr;
use std::io::{self, BufRead, BufReader, ErrorKind, Write};
use std::process::{Child, ChildStdin, ChildStdout, Stdio};

/// The running program; it ends when this is dropped, because its input ends then.
pub struct Scenes {
    child: Child,
    input: Option<ChildStdin>,
    output: BufReader<ChildStdout>,
}

impl Scenes {
    /// Starts the program that is built for this machine.
    pub fn built() -> Scenes {
        Scenes::start(built("scenes")).expect("the program starts")
    }

    /// Starts the program at a path.
    pub fn start(path: impl AsRef<OsStr>) -> io::Result<Scenes> {
        std::fs::metadata(path.as_ref())?;
        let mut child = command(path)
            .stdin(Stdio::piped())
            .stdout(Stdio::piped())
            .spawn()?;
        let input = child.stdin.take();
        let output = child.stdout.take().ok_or(ErrorKind::BrokenPipe)?;
        Ok(Scenes {
            child,
            input,
            output: BufReader::new(output),
        })
    }

    /// The value of what the program answers to a row, which has a state behind it. The value says the same words again.
    fn ask<T>(&mut self, row: &str, value: fn(&str) -> Option<T>, words: fn(&T) -> String) -> T {
        let mut lines = [String::new(), String::new()];
        if let Some(input) = &mut self.input {
            writeln!(input, "{row}").expect("the program takes a row");
        }
        for line in &mut lines {
            self.output.read_line(line).expect("the program answers");
        }
        let answer = lines[1].trim().rsplit_once(';').map_or("", |parts| parts.0);
        let value = value(answer).unwrap_or_else(|| panic!("{row}: {answer}"));
        assert_eq!(words(&value), answer, "{row}");
        value
    }

    fn done(&mut self, row: &str) -> Result<(), Refusal> {
        self.ask(row, done_in, |answer| done(*answer))
    }

    fn told(&mut self, row: &str) -> (Told, Vec<u8>) {
        self.ask(row, telling_in, |(did, sent)| told(did) + &output(sent))
    }
}

impl Ends for Scenes {
    fn start(&mut self, line: u8, now: u32) {
        self.done(&format!("desk start {line}")).expect("a line");
        self.told(&format!("master start {line} {now}"));
    }

    fn desk_tick(&mut self, now: u32) -> Result<bool, Refusal> {
        let row = format!("desk tick {now}");
        self.ask(&row, ticked_in, |answer| ticked(*answer))
    }

    fn desk_queue(&mut self, record: &Record) -> Result<(), Refusal> {
        self.done(&format!("desk queue {}", shown(record)))
    }

    fn desk_set(&mut self, record: &Record) -> Result<(), Refusal> {
        self.done(&format!("desk set {}", shown(record)))
    }

    fn desk_key(&mut self, key: u8) -> Result<(), Refusal> {
        self.done(&format!("desk key {}", in_row(&[key])))
    }

    fn desk_hear(&mut self, now: u32, room: usize, frame: &[u8]) -> Result<Hearing, Refusal> {
        let row = format!("desk hear {now} {room} {}", in_row(frame));
        self.ask(&row, hearing_in, |answer| hearing(answer.clone()))
    }

    fn master_offer(&mut self, now: u32, room: usize, record: &Record) -> (Told, Vec<u8>) {
        self.told(&format!("master offer {now} {room} {}", shown(record)))
    }

    fn master_tick(&mut self, now: u32, room: usize) -> (Told, Vec<u8>) {
        self.told(&format!("master tick {now} {room}"))
    }

    fn master_hear(&mut self, now: u32, room: usize, frame: &[u8]) -> (Told, Vec<u8>) {
        self.told(&format!("master hear {now} {room} {}", in_row(frame)))
    }
}

impl Drop for Scenes {
    fn drop(&mut self) {
        drop(self.input.take());
        let _ = self.child.wait();
    }
}
