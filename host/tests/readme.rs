//! What the README shows of other files is what stands in them.

mod machine;

use host::second::listing::listing;
use host::second::replay::replay;
use machine::{repository, text};

/// Lines as the README shows them, four spaces in.
fn indented(lines: &str) -> String {
    let lines = lines.trim_end().lines().map(|line| match line {
        "" => String::new(),
        _ => format!("    {line}"),
    });
    lines.collect::<Vec<_>>().join("\n") + "\n"
}

/// The README and the manual show examples/read.c as it is.
#[test]
fn the_example() {
    let source = text("examples/read.c");
    let (_, code) = source.split_once('\n').expect("a first line");
    assert!(text("README.md").contains(&indented(code)));
    let page = text("man/in656.3").replace("\\-", "-").replace("\\e", "\\");
    assert!(page.contains(code));
}

/// Every rule that it quotes, and every definition of the checksum.
#[test]
fn the_definition() {
    let (page, rules) = (text("README.md"), text("docs/RULES.md"));
    let quoted: Vec<&str> = page
        .lines()
        .filter_map(|line| line.strip_prefix("> "))
        .collect();
    assert!(!quoted.is_empty());
    for rule in quoted {
        assert!(rules.contains(&format!("- {rule}\n")), "{rule}");
    }
    let source = text("crates/characters/specs/Checksum.antt");
    let (_, definitions) = source.split_once("\n\n").expect("the lines behind use");
    assert!(page.contains(&indented(definitions)));
}

/// One row for each refusal that the header has.
#[test]
fn the_refusals() {
    let (page, header) = (text("README.md"), text("include/in656.h"));
    let list = header.split("/* Refusals").nth(1).expect("its list");
    let list = list.split("/*\n").next().expect("its end");
    let numbers = list.lines().filter_map(|line| {
        let word = line.strip_prefix("#define ")?.split_whitespace().nth(1)?;
        word.strip_suffix('u')?.parse::<usize>().ok()
    });
    let numbers: Vec<usize> = numbers.filter(|number| *number > 0).collect();
    assert_eq!(numbers, (1..=numbers.len()).collect::<Vec<_>>());
    let table = page.split("|---:|---|---|\n").nth(1).expect("its table");
    let rows = table.lines().take_while(|line| line.starts_with('|'));
    let rows = rows.filter_map(|row| row.split('|').nth(1)?.trim().parse().ok());
    assert_eq!(rows.collect::<Vec<usize>>(), numbers);
}

/// The rows of the kept log: one in the README, the first seven in docs/REPLAY.md; and the rows of
/// the manual's example.
#[test]
fn the_replay() {
    let log = std::fs::read(repository("samples/school.log")).expect("the sample");
    let rows = replay(&log);
    let first: Vec<&str> = rows.lines().take(7).collect();
    assert!(text("docs/REPLAY.md").contains(&format!("\n\n{}\n", indented(&first.join("\n")))));
    assert!(text("README.md").contains(&format!("\n\n{}\n", indented(first[1]))));
    let cut = &log[..log.len() - 1];
    let cut_off = replay(cut).lines().last().unwrap_or("").to_string();
    assert!(
        text("README.md").contains(&format!("`{cut_off}`")),
        "{cut_off}"
    );
    let rows = replay(b"1M>\0\0\x04.\x0C\n10G0E2234C\rM>");
    let page = text("man/replay.1").replace("\\e", "\\");
    let example = "$ printf '1M>\\0\\0\\4.\\14\\n10G0E2234C\\rM>' | replay\n";
    assert!(page.contains(&format!("{example}{rows}.Ed\n")));
}

/// The two lines of a listing.
#[test]
fn the_listing() {
    let capture = std::fs::read(repository("samples/line1.cap")).expect("the sample");
    let listed = listing(&capture);
    let lines: Vec<&str> = listed.lines().skip(6).take(2).collect();
    let page = text("README.md");
    assert!(page.contains(&indented(&lines.join("\n"))));
    let offset = lines[1].split(' ').nth(1).and_then(|n| n.parse().ok());
    let offset: usize = offset.expect("a number");
    assert_eq!(capture[1 + offset..][..4], *b"\n08A");
    let from = format!("    tail -c +{} samples/line1.cap |", offset + 2);
    assert!(page.contains(&from), "{from}");
}

/// The version that it names is the header's.
#[test]
fn the_version() {
    let (page, header) = (text("README.md"), text("include/in656.h"));
    let number = |part: &str| {
        let front = format!("#define IN656_VERSION_{part} ");
        let line = header.lines().find_map(|line| line.strip_prefix(&front));
        line.expect(part).trim_end_matches('u').to_string()
    };
    let [major, minor, patch] = ["MAJOR", "MINOR", "PATCH"].map(number);
    let version = format!("{major}.{minor}.{patch}");
    for words in [
        format!("`in656_{version}_amd64.deb`"),
        format!("`in656-{version}-linux-x86_64.tar.gz`"),
        format!("The library has a version, {version}."),
        format!("`libin656.so.{major}`"),
    ] {
        assert!(page.contains(&words), "{words}");
    }
}
