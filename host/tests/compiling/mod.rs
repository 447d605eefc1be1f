//! Compiling and running C programs over the header and the library, by the machine's own compilers.

// Each test file uses a part of this module.
#![allow(dead_code)]

use crate::machine::{has, repository, skipped};
use std::io::Write;
use std::path::{Path, PathBuf};
use std::process::{Command, Output, Stdio};

pub const C99: [&str; 3] = ["gcc", "-std=c99", "-D_XOPEN_SOURCE=700"];
pub const CPP17: [&str; 3] = ["g++", "-xc++", "-std=c++17"];
const STRICT: [&str; 7] = [
    "-Wall",
    "-Wextra",
    "-Werror",
    "-pedantic",
    "-Wconversion",
    "-Wcast-qual",
    "-Wwrite-strings",
];
pub const DATA: &str = "B 125 90 120 88";

/// The library for this machine, where it is built.
pub fn library() -> Option<PathBuf> {
    let path = repository("target/staticlib/libin656.a");
    if !path.is_file() {
        skipped("the library is not built: tools/build archive in656");
        return None;
    }
    Some(path)
}

/// Compiles sources of examples/ without a warning; further arguments of the compiler stand last.
pub fn compile(compiler: &[&str], sources: &[&str], rest: &[&Path]) {
    let built = Command::new(compiler[0])
        .args(&compiler[1..])
        .args(STRICT)
        .arg("-I")
        .arg(repository("include"))
        .args(sources.iter().map(|name| repository("examples").join(name)))
        .args(rest)
        .output()
        .expect("the compiler runs");
    let said = String::from_utf8_lossy(&built.stderr);
    assert!(built.status.success(), "{sources:?}: {said}");
    assert_eq!(said, "", "{sources:?}");
}

/// Builds an example over the library, under a name of its own; with the sources that examples share, where it uses them.
pub fn build(compiler: &[&str], name: &str, example: &str, shares: bool) -> Option<PathBuf> {
    let library = library().filter(|_| has(compiler[0]))?;
    let program = Path::new(env!("CARGO_TARGET_TMPDIR")).join(name);
    let sources = [example, "serial.c", "show.c"];
    let sources = if shares { &sources[..] } else { &sources[..1] };
    // what follows -xnone is taken by its name: the archive is no source
    let none = Path::new("-xnone");
    compile(
        compiler,
        sources,
        &[none, &library, Path::new("-o"), &program],
    );
    Some(program)
}

/// An example that opens a pseudo-terminal, where this machine has them.
pub fn talker(name: &str, example: &str) -> Option<PathBuf> {
    if !Path::new("/dev/ptmx").exists() {
        skipped("this machine has no pseudo-terminals");
        return None;
    }
    build(&C99, name, example, true)
}

/// Runs a program with words, on an input.
pub fn run(program: &Path, words: &[&str], input: &[u8]) -> Output {
    let mut child = Command::new(program)
        .args(words)
        .stdin(Stdio::piped())
        .stdout(Stdio::piped())
        .stderr(Stdio::piped())
        .spawn()
        .expect("the example starts");
    let mut pipe = child.stdin.take().expect("its input is a pipe");
    pipe.write_all(input).expect("it takes its input");
    drop(pipe);
    child.wait_with_output().expect("it is waited for")
}

pub fn said(output: &Output) -> String {
    String::from_utf8_lossy(&output.stdout).into_owned()
}
