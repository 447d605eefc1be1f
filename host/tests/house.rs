//! The repository itself: its parts, their drawings, and the length of its files.

use std::collections::{BTreeMap, BTreeSet};
use std::path::{Path, PathBuf};
use std::{fs, process::Command};

type Parts = BTreeMap<String, BTreeSet<String>>;

/// A path in the repository.
fn repository(path: &str) -> PathBuf {
    Path::new(env!("CARGO_MANIFEST_DIR")).join("..").join(path)
}

fn text(path: &str) -> String {
    fs::read_to_string(repository(path)).expect(path)
}

/// The crates that crates.txt lists, each with those of the repository that it uses.
fn listed() -> Parts {
    let page = text("crates.txt");
    let rows = page.lines().map(|l| l.split('#').next().unwrap_or(""));
    let rows: Vec<_> = rows.filter_map(|l| l.split_once(':')).collect();
    let names: BTreeSet<_> = rows.iter().map(|(name, _)| name.trim()).collect();
    let used = |list: &str| {
        list.split_whitespace()
            .filter(|d| names.contains(d))
            .map(String::from)
            .collect()
    };
    rows.iter()
        .map(|(name, list)| (named(name), used(list)))
        .collect()
}

/// A crate's name where crates.txt lists it: a word on its kind may stand behind.
fn named(listed: &str) -> String {
    listed.split_whitespace().next().unwrap_or("").to_string()
}

/// Whether a crate uses another, perhaps through others.
fn reaches(parts: &Parts, from: &str, to: &str) -> bool {
    parts[from].iter().any(|d| d == to || reaches(parts, d, to))
}

/// The files of Rattle and antt under a folder, but for what rt makes.
fn sources(folder: &Path, found: &mut Vec<PathBuf>) {
    for entry in fs::read_dir(folder).expect("a folder") {
        let path = entry.expect("an entry").path();
        if path.is_dir() {
            if path.file_name().is_some_and(|name| name != "out") {
                sources(&path, found);
            }
        } else if path.extension().is_some_and(|e| e == "rt" || e == "antt") {
            found.push(path);
        }
    }
}

#[test]
fn each_crate_has_its_folder() {
    let folders = fs::read_dir(repository("crates")).expect("crates");
    let folders: BTreeSet<_> = folders
        .map(|e| {
            e.expect("an entry")
                .file_name()
                .into_string()
                .expect("a name")
        })
        .collect();
    assert_eq!(folders, listed().into_keys().collect());
}

/// The groups of crates.txt: each heading with the crates below it.
fn groups() -> Vec<(String, BTreeSet<String>)> {
    let mut found: Vec<(String, BTreeSet<String>)> = Vec::new();
    for line in text("crates.txt").lines() {
        if let Some(heading) = line.strip_prefix("# ").filter(|h| !h.ends_with('.')) {
            found.push((heading.to_string(), BTreeSet::new()));
        } else if let (Some((name, _)), Some(last)) = (line.split_once(':'), found.last_mut()) {
            last.1.insert(named(name));
        }
    }
    found
}

/// What stands between the two marks of a drawing.
fn drawing<'a>(page: &'a str, name: &str) -> &'a str {
    let mark = format!("<!-- tools/drawing.py: {name} -->");
    let behind = page.split(mark.as_str()).nth(1).expect(name);
    let end = behind.split("<!-- end of the drawing -->").next();
    end.expect("its end")
}

/// The first picture has every group with its crates; each group's own has a box for each of its crates, and an arrow for
/// each use inside the group that does not follow from other arrows; and each crate has its row in a table.
#[test]
fn each_crate_is_drawn_in_its_group() {
    let parts = listed();
    let page = text("docs/ARCHITECTURE.md");
    let groups = groups();
    let all: BTreeSet<_> = groups.iter().flat_map(|(_, names)| names.clone()).collect();
    assert_eq!(all, parts.keys().cloned().collect());
    let first = drawing(&page, "the groups").replace("<br>", " ");
    for (group, names) in &groups {
        let node = first
            .lines()
            .find(|l| l.contains(&format!("<b>{group}</b>")));
        let node = node.unwrap_or_else(|| panic!("the first picture lacks {group}"));
        let drawn = node.rsplit("</b>").next().unwrap_or("");
        let drawn = drawn.trim_end_matches("\"]").split(',');
        assert_eq!(
            &drawn.map(|n| n.trim().to_string()).collect::<BTreeSet<_>>(),
            names
        );
        let own = drawing(&page, group);
        let arrows: BTreeSet<_> = own
            .lines()
            .filter_map(|l| l.split_once("-->"))
            .map(|(a, b)| (a.trim().to_string(), b.trim().to_string()))
            .filter(|(a, _)| names.contains(a))
            .collect();
        let inside =
            |n: &String| -> BTreeSet<String> { parts[n].intersection(names).cloned().collect() };
        let near = names.iter().flat_map(|name| {
            let uses = inside(name);
            let near = uses
                .iter()
                .filter(|d| !uses.iter().any(|e| reaches(&parts, e, d)));
            near.map(|d| (d.clone(), name.clone())).collect::<Vec<_>>()
        });
        assert_eq!(arrows, near.collect(), "{group}: run tools/drawing.py");
        for name in names {
            assert!(
                own.contains(&format!("<b>{name}</b>")),
                "{group}: no box of {name}"
            );
            assert!(
                page.contains(&format!("\n| `{name}` |")),
                "no row of {name}"
            );
        }
    }
    // where there is Python, the words and modules in the boxes too
    let check = Command::new("python3")
        .args(["tools/drawing.py", "--check"])
        .current_dir(repository(""))
        .status();
    assert!(check.map_or(true, |s| s.success()), "run tools/drawing.py");
}

/// The file that a word in code cites, if it is a path: `tools/edits`, `crates/X/src` or, of a crate, `desk/specs/Hearing.antt`.
fn cited(word: &str, parts: &Parts) -> Option<PathBuf> {
    let plain = |c: char| c.is_ascii_alphanumeric() || "/._-".contains(c);
    let (first, rest) = word.split_once('/')?;
    let example = ["X", "NAME", "CRATE"]
        .iter()
        .any(|e| word.split(['/', '.']).any(|w| w == *e));
    if example || !word.chars().all(plain) {
        return None;
    }
    let part = rest.split('/').next().unwrap_or("");
    if parts.contains_key(first) && ["src", "specs", "proofs", "must-fail"].contains(&part) {
        return Some(repository("crates").join(word));
    }
    let folders = [
        "crates", "docs", "examples", "host", "include", "man", "samples", "tools",
    ];
    folders.contains(&first).then(|| repository(word))
}

/// No page but the one of past changes cites a file that is not there.
#[test]
fn each_path_that_a_page_cites_is_there() {
    let parts = listed();
    assert!(cited("desk/specs/Nowhere.antt", &parts).is_some_and(|path| !path.exists()));
    assert!(cited("crates/X/src", &parts).is_none() && cited("W1/W2", &parts).is_none());
    let docs = fs::read_dir(repository("docs")).expect("docs");
    let docs = docs.map(|e| {
        format!(
            "docs/{}",
            e.expect("an entry").file_name().to_string_lossy()
        )
    });
    let pages = docs.filter(|p| p.ends_with(".md") && p != "docs/CHANGES.md");
    for page in pages.chain(["README.md".to_string(), "CONTRIBUTING.md".to_string()]) {
        for word in text(&page).split('`').skip(1).step_by(2) {
            if let Some(path) = cited(word, &parts) {
                assert!(path.exists(), "{page} cites {word}, which is not there");
            }
        }
    }
}

/// The names of `use` lines that nothing else in a file has. `◌++◌` stands as `++` between two things; a `pub use` passes
/// its names on.
fn unused(text: &str) -> Vec<String> {
    let code = |line: &str| line.split("--").next().unwrap_or("").to_string();
    let (uses, rest): (Vec<_>, Vec<_>) = text
        .lines()
        .map(code)
        .partition(|line| line.trim_start().starts_with("use "));
    let apart = |c: char| c.is_whitespace() || "(){},;.".contains(c);
    let words: BTreeSet<_> = rest.iter().flat_map(|line| line.split(apart)).collect();
    let brought = uses.iter().flat_map(|line| match line.split_once('{') {
        Some((_, list)) => list.trim_end().trim_end_matches('}').split(',').collect(),
        None if line.contains(" as ") => vec![line.as_str()],
        None => vec![],
    });
    brought
        .filter_map(|name| name.rsplit(" as ").next().map(str::trim))
        .filter(|name| !words.contains(name))
        .filter(|name| {
            let mut parts = name.split('◌').filter(|part| !part.is_empty());
            !name.contains('◌') || !parts.all(|part| words.contains(part))
        })
        .map(String::from)
        .collect()
}

#[test]
fn no_name_is_brought_in_for_nothing() {
    let some = "use a.{◌+◌, b, c as d}\nuse e.{f}\nuse g as h\nuse i as j\nd : b + j.b -- f\n";
    assert_eq!(unused(some), ["f", "h"]);
    let mut found = Vec::new();
    sources(&repository("crates"), &mut found);
    for path in found
        .iter()
        .filter(|p| p.extension().is_some_and(|e| e == "antt"))
    {
        let names = unused(&fs::read_to_string(path).expect("it is read"));
        assert!(names.is_empty(), "{path:?} does not use {names:?}");
    }
}

#[test]
fn lines_and_files_are_short() {
    let mut found = Vec::new();
    sources(&repository("crates"), &mut found);
    for path in found {
        let text = fs::read_to_string(&path).expect("it is read");
        let longest = text.lines().map(|l| l.chars().count()).max().unwrap_or(0);
        assert!(
            longest <= 240,
            "{path:?} has a line of {longest} characters: bind its parts to names, or break it"
        );
        let proof = path.components().any(|c| c.as_os_str() == "proofs");
        assert!(
            proof || text.lines().count() <= 320,
            "{path:?} has over 320 lines"
        );
    }
}
