//! The words of refusals and outcomes: README, manual, header and the compiled library have the same.

mod compiling;
mod machine;

use compiling::{library, run, said};
use machine::{has, text};
use std::collections::BTreeMap;
use std::fs;
use std::path::Path;
use std::process::Command;

/// Prints all words that the library has: what they are of, its numbers, and the words.
const PRINTED: &str = r#"
#include <in656.h>
#include <stdio.h>
int main(void)
{
  char words[IN656_WORDS_LENGTH];
  unsigned i, j;
  for (i = 0; i < 40; i++)
    if (in656_refusal_words(i, words, sizeof words).refusal == IN656_OK)
      printf("refusal %u 0 %s\n", i, words);
  for (i = 0; i < 40; i++)
    for (j = 0; j < 40; j++) {
      if (in656_desk_words(i, j, words, sizeof words).refusal == IN656_OK)
        printf("desk %u %u %s\n", i, j, words);
      if (in656_master_words(i, j, words, sizeof words).refusal == IN656_OK)
        printf("master %u %u %s\n", i, j, words);
    }
  return 0;
}
"#;

type Words = BTreeMap<(String, u32, u32), String>;

/// The number in brackets behind each constant of an item of the manual.
fn numbers(item: &str) -> Vec<u32> {
    let numbers = item.split('(').skip(1).map(|rest| rest.split(')').next());
    numbers.filter_map(|number| number?.parse().ok()).collect()
}

/// The words that the manual has.
fn in_manual() -> Words {
    let page = text("man/in656.3");
    let mut found = Words::new();
    for item in page.split("\n.It Dv ").skip(1) {
        let (names, rest) = item.split_once('\n').unwrap_or((item, ""));
        let first = rest.lines().next().unwrap_or("").to_string();
        let of = match names {
            _ if names.starts_with("IN656_DESK_") && names.contains('(') => "desk",
            _ if names.starts_with("IN656_MASTER_") && names.contains('(') => "master",
            _ => continue,
        };
        let numbers = numbers(names);
        let detail = numbers.get(1).copied().unwrap_or(0);
        found.insert((of.into(), numbers[0], detail), first);
    }
    let (_, list) = page.split_once(".Sh RETURN VALUES\n").expect("a list");
    let (list, _) = list.split_once(".El\n").expect("its end");
    for (number, words) in list.lines().filter_map(|line| line.split_once(": ")) {
        let words = words.split(';').next().unwrap_or("").to_string();
        found.insert(
            ("refusal".into(), number.parse().expect("a number"), 0),
            words,
        );
    }
    found
}

#[test]
fn the_compiled_library() {
    let Some(library) = library().filter(|_| has("cc")) else {
        return;
    };
    let folder = Path::new(env!("CARGO_TARGET_TMPDIR"));
    let (source, program) = (folder.join("words.c"), folder.join("words"));
    fs::write(&source, PRINTED).expect("a file");
    let mut compiler = Command::new("cc");
    compiler.arg("-I").arg(machine::repository("include"));
    compiler.arg("-o").args([&program, &source, &library]);
    assert!(compiler.status().expect("it runs").success());
    let printed = said(&run(&program, &[], b""));
    let row = |line: &str| {
        let mut parts = line.splitn(4, ' ').map(String::from);
        let mut next = || parts.next().expect("a part");
        let (of, outcome, detail) = (next(), next(), next());
        let number = |word: String| word.parse().expect("a number");
        ((of, number(outcome), number(detail)), next())
    };
    let words: Words = printed.lines().map(row).collect();
    assert_eq!(words, in_manual());
}

/// The column of the README's table, and the comments of the header without what stands in brackets.
#[test]
fn the_pages() {
    let manual = in_manual();
    let refusals = manual.iter().filter(|((of, ..), _)| of == "refusal");
    let refusals: Vec<(u32, String)> = refusals.map(|((_, n, _), w)| (*n, w.clone())).collect();
    assert_eq!(refusals.len(), 21);
    let readme = text("README.md");
    let rows = readme.lines().filter_map(|line| {
        let cells: Vec<&str> = line.split('|').map(str::trim).collect();
        Some((cells.get(1)?.parse().ok()?, cells.get(2)?.to_string()))
    });
    assert_eq!(rows.collect::<Vec<(u32, String)>>(), refusals[1..]);
    let header = text("include/in656.h");
    for (number, words) in &refusals[1..] {
        let (_, list) = header.split_once("/* Refusals").expect("a list");
        let line = list
            .lines()
            .find(|line| line.contains(&format!(" {number}u ")));
        let (_, comment) = line.and_then(|line| line.split_once("/* ")).expect("one");
        let plain = comment.replace(" (place 5)", "");
        let plain = plain.split([';', '(', '*']).next().unwrap_or("").trim();
        assert_eq!(plain, words);
    }
    for page in ["listing.1", "replay.1"] {
        let page = text(&format!("man/{page}"));
        let (_, list) = page.split_once(".Sh REFUSALS\n").expect("a list");
        let (list, _) = list.split_once(".El\n").expect("its end");
        for item in list.split(".It ").skip(1) {
            let (number, words) = item.trim_end().split_once('\n').expect("an item");
            let number: u32 = number.parse().expect("a number");
            if number == 15 {
                continue;
            }
            assert_eq!(
                (number, words),
                (number, refusals[number as usize].1.as_str())
            );
        }
    }
}

/// The header says of each outcome of one number what the manual says, before more of it.
#[test]
fn the_outcomes() {
    let header = text("include/in656.h");
    for ((of, outcome, detail), words) in in_manual() {
        let prefix = match (of.as_str(), outcome, detail) {
            ("refusal", ..) => continue,
            ("desk", _, 0) => "IN656_DESK_",
            ("master", _, 0) => "IN656_MASTER_",
            ("desk", ..) => "IN656_FROM_",
            (_, 2, _) => "IN656_SENT_",
            (_, 5, _) => "IN656_GIVEN_UP_",
            _ => "IN656_IGNORED_",
        };
        let number = if detail == 0 { outcome } else { detail };
        let mut lines = header.lines().filter(|line| {
            line.starts_with(&format!("#define {prefix}")) && line.contains(&format!(" {number}u "))
        });
        let line = lines.next().expect("its line");
        let (_, comment) = line.split_once("/* ").expect("a comment");
        let own = words.split(": ").last().unwrap_or("");
        let own = own.trim_start_matches("answered with ");
        let plain = comment
            .replace("N with A,", "N,")
            .replace("answered by N with 1 or 2", "rejected");
        assert!(
            plain.starts_with(own) || plain.starts_with(&words),
            "{words}: {line}"
        );
    }
}
