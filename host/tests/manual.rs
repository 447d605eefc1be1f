//! The manual pages: they say what the header says, and the formatter finds nothing wrong with them.

mod machine;

use host::comparing::linked::library;
use host::comparing::stack::most;
use machine::{has, repository, skipped, text};
use std::collections::BTreeMap;
use std::fs;
use std::process::Command;

/// The lines of the header that declare a function: what it gives, its name and its parameters.
fn functions(header: &str) -> Vec<(&str, &str, &str)> {
    let mut found = Vec::new();
    for line in header.lines() {
        let front = line
            .strip_suffix(");")
            .and_then(|line| line.split_once('('));
        let Some((front, parameters)) = front else {
            continue;
        };
        if let Some((gives, name)) = front.split_once(" in656_") {
            found.push((gives, &front[front.len() - name.len() - 6..], parameters));
        }
    }
    found
}

/// Each function stands in the manual as the header declares it.
#[test]
fn each_function() {
    let (header, page) = (text("include/in656.h"), text("man/in656.3"));
    let functions = functions(&header);
    assert!(functions.len() > 30);
    assert_eq!(page.matches("\n.Fo ").count(), functions.len());
    for (gives, name, parameters) in functions {
        let shown = match parameters {
            "void" => "void".into(),
            _ => format!("\"{}\"", parameters.replace(", ", "\" \"")),
        };
        let synopsis = format!(".Ft {gives}\n.Fo {name}\n.Fa {shown}\n.Fc\n");
        assert!(page.contains(&synopsis), "{synopsis}");
    }
}

/// Each function but those of lengths stands in the table of stacks, and needs no more than stands there, on the machine of
/// which the table is.
#[test]
fn the_stack() {
    let (header, page) = (text("include/in656.h"), text("man/in656.3"));
    let table = page.split_once(".It Sy call Ta Sy bytes\n");
    let (table, _) = table
        .and_then(|(_, rest)| rest.split_once(".El\n"))
        .expect("a table");
    let row = |line: &str| {
        let (name, bytes) = line.strip_prefix(".It Fn in656_")?.split_once(" Ta ")?;
        Some((name.to_string(), bytes.parse().ok()?))
    };
    let table: Vec<(String, usize)> = table.lines().map(|line| row(line).expect(line)).collect();
    let functions = functions(&header).into_iter().filter(|f| f.0 != "size_t");
    let names = functions.filter_map(|(_, name, _)| name.strip_prefix("in656_"));
    assert!(table.iter().map(|(name, _)| name).eq(names));
    if cfg!(not(target_arch = "x86_64")) || library().is_err() {
        return skipped("the table of stacks is of the library for x86-64");
    }
    let table: BTreeMap<String, usize> = table.into_iter().collect();
    for (call, bytes) in most(1, 20) {
        assert!(
            bytes <= table[call],
            "in656_{call} needs {bytes}: make stack measures it"
        );
    }
}

/// Each constant stands in the manual with its number, and the version with its name alone.
#[test]
fn each_constant() {
    let (header, page) = (text("include/in656.h"), text("man/in656.3"));
    let mut count = 0;
    for line in header.lines().filter_map(|l| l.strip_prefix("#define ")) {
        let mut words = line.split_whitespace();
        let (name, number) = (words.next().unwrap_or(""), words.next().unwrap_or(""));
        let ways = match number.strip_suffix('u') {
            Some(number) => vec![
                format!("Dv {name}\n{number}: "),
                format!("Dv {name}\n({number})"),
                format!("Dv {name}\n({number}, "),
                format!("Dv {name} No ({number})"),
            ],
            None if number.is_empty() => continue,
            None => vec![format!("Dv {name}\n")],
        };
        assert!(ways.iter().any(|way| page.contains(way)), "{name}");
        count += 1;
    }
    assert!(count > 90, "{count}");
}

/// Each field of the result stands in the manual's list, in order, and each is spoken of in the header.
#[test]
fn each_field() {
    let (header, page) = (text("include/in656.h"), text("man/in656.3"));
    let (_, fields) = header
        .split_once("typedef struct in656_result {\n")
        .expect("it");
    let (fields, _) = fields.split_once("} in656_result;").expect("its end");
    let fields = fields.lines().map(|line| {
        let name = line.split(';').next().unwrap_or("").rsplit(' ').next();
        name.unwrap_or("").split('[').next().unwrap_or("")
    });
    let (_, list) = page.split_once(".Ss Results\n").expect("a list");
    let (list, _) = list.split_once(".El\n").expect("its end");
    let listed = list.lines().filter_map(|line| line.strip_prefix(".It Fa "));
    assert_eq!(listed.collect::<Vec<_>>(), fields.collect::<Vec<_>>());
}

/// Each call that may be refused stands in the list of checks, with the causes of 14 that the header names.
#[test]
fn each_refusal_of_a_call() {
    let (header, page) = (text("include/in656.h"), text("man/in656.3"));
    let (_, list) = page
        .split_once("A call makes its checks in this order")
        .expect("a list");
    let (list, _) = list.split_once(".El\n").expect("its end");
    let items: Vec<&str> = list.split(".It Fn ").skip(1).collect();
    for (gives, name, _) in functions(&header) {
        let own = items.iter().find(|item| {
            let names = item.lines().next().unwrap_or("");
            names.split(" , Fn ").any(|own| own == name)
        });
        let refused = gives == "in656_result" && name != "in656_next";
        assert_eq!(own.is_some(), refused, "{name}");
        let own = own.map_or(String::new(), |item| {
            item.replace("\n.Fa ", " ").replace('\n', " ")
        });
        let declared = header.find(&format!(" {name}(")).expect(name);
        let comment = header[..declared].rsplit("/*").next().unwrap_or("");
        if let Some((_, cause)) = comment.split_once("14 (") {
            let (cause, _) = cause.split_once(')').expect("its end");
            let (first, second) = cause.split_once(", or ").unwrap_or((cause, ""));
            let same = |word: &str| own.contains(word.trim_start_matches("out under "));
            assert!(
                same(first) && same(second.trim_start_matches("the block has ")),
                "{name}: {own}"
            );
        }
        assert_eq!(own.contains("14,"), comment.contains("14"), "{name}: {own}");
    }
}

/// The formatter finds nothing wrong with any page, and each page that one cites is there.
#[test]
fn each_page() {
    let pages = fs::read_dir(repository("man")).expect("the manual");
    let pages = pages.map(|entry| entry.expect("an entry").file_name().into_string());
    for page in pages.map(|name| name.expect("a name")) {
        let source = text(&format!("man/{page}"));
        for cited in source.lines().filter_map(|l| l.strip_prefix(".Xr ")) {
            let mut words = cited.split(' ');
            let (name, section) = (words.next().unwrap_or(""), words.next().unwrap_or(""));
            let ours = repository("man").join(format!("{name}.{section}"));
            assert!(
                ours.is_file() || ["poll", "tail"].contains(&name),
                "{page} cites {cited}"
            );
        }
        if !has("man") {
            continue;
        }
        let output = Command::new("man")
            .args(["--warnings", "-E", "UTF-8", "-Tutf8", "-Z", "-l"])
            .arg(repository("man").join(&page))
            .env("LC_ALL", "C.UTF-8")
            .env("MANROFFSEQ", "")
            .output()
            .expect("man runs");
        assert_eq!(String::from_utf8_lossy(&output.stderr), "", "{page}");
    }
}
