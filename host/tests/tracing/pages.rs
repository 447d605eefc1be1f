//! The pages: the rules, the trace, and the promises.

use super::edits::Edit;
use super::tree::Tree;
use std::collections::BTreeSet;

/// A rule's number: a letter and digits.
pub fn is_rule(word: &str) -> bool {
    let mut letters = word.chars();
    let first = letters.next().is_some_and(|c| c.is_ascii_uppercase());
    first && word.len() > 1 && letters.all(|c| c.is_ascii_digit())
}

/// The rules of a page with their lines: `- **R1** ..` in a list, `| R1 | ..` in a table.
pub fn rules(page: &str) -> Vec<(String, usize)> {
    let id = |line: &str| {
        let list = line.strip_prefix("- **").and_then(|l| l.split_once("** "));
        let table = line.strip_prefix("| ").and_then(|l| l.split_once(" |"));
        let id = list.or(table)?.0;
        is_rule(id).then(|| id.to_string())
    };
    let lines = page.lines().enumerate();
    lines
        .filter_map(|(i, line)| Some((id(line)?, i + 1)))
        .collect()
}

/// The rules that a line cites: `rule R1`, or `rules R1, R4 to R6 and W2`.
pub fn cited(line: &str) -> Vec<&str> {
    let mut citing = false;
    let mut found = Vec::new();
    for word in line.split_whitespace() {
        let word = word.trim_matches(|c: char| !c.is_alphanumeric());
        if citing && is_rule(word) {
            found.push(word);
        } else if !(citing && ["to", "and"].contains(&word)) {
            citing = ["rule", "rules"].contains(&word);
        }
    }
    found
}

/// The cells of a table's row.
fn cells(line: &str) -> Vec<&str> {
    let inside = line.strip_prefix("| ").and_then(|l| l.strip_suffix(" |"));
    inside.map_or(Vec::new(), |l| l.split(" | ").collect())
}

/// The names in code of a cell.
fn names(cell: &str) -> Vec<String> {
    cell.split('`')
        .skip(1)
        .step_by(2)
        .map(String::from)
        .collect()
}

/// A row of the trace: what states, carries out, proves and shows its rule, and what must fail.
pub struct Row {
    pub rule: String,
    pub line: usize,
    pub columns: Vec<Vec<String>>,
}

pub const COLUMNS: [&str; 5] = ["stated by", "code", "proved by", "shown by", "must fail"];

/// The rows of the trace; or what is wrong with one, or with the head of a table.
pub fn rows(page: &str) -> Result<Vec<Row>, String> {
    let head = format!("| rule | {} |", COLUMNS.join(" | "));
    let other = |line: &&str| line.starts_with("| rule |") && **line != head;
    if let Some(i) = page.lines().position(|line| other(&line)) {
        return Err(format!("docs/TRACE.md:{}: write {head}", i + 1));
    }
    let row = |(rule, line): (String, usize)| {
        let cells = cells(page.lines().nth(line - 1).unwrap_or(""));
        let read = |cell: &&str| Edit::cell(names(cell).into_iter()) == **cell;
        if cells.len() != 6 || !cells[1..].iter().all(read) {
            return Err(format!("docs/TRACE.md:{line}: write six cells, each behind the first of names in code with a comma between, or -"));
        }
        let columns = cells[1..].iter().map(|cell| names(cell)).collect();
        Ok(Row {
            rule,
            line,
            columns,
        })
    };
    rules(page).into_iter().map(row).collect()
}

const UNCODED: &str = "## Rules that no code carries out";

/// The rules of a list's words: `R1, R2`, or `R1 to R4` for all four.
fn spread(words: &str) -> Vec<String> {
    let number = |id: &str| id[1..].parse::<usize>().ok();
    let all = |part: &str| match part.split_once(" to ") {
        Some((first, last)) if is_rule(first) && is_rule(last) => {
            let ends = number(first).zip(number(last));
            let (from, to) = ends.unwrap_or((1, 0));
            (from..=to).map(|n| format!("{}{n}", &first[..1])).collect()
        }
        _ => vec![part.to_string()],
    };
    words.split(", ").flat_map(all).collect()
}

/// The rules that the trace lists as such that no code carries out, with the line of each.
pub fn uncoded(page: &str) -> Vec<(String, usize)> {
    let lines = page.lines().enumerate();
    let section = lines.skip_while(|(_, line)| *line != UNCODED).skip(1);
    let section = section.take_while(|(_, line)| !line.starts_with("## "));
    let listed = section.filter_map(|(i, line)| {
        let (words, _) = line.strip_prefix("- ")?.split_once(": ")?;
        Some((i + 1, words))
    });
    listed
        .flat_map(|(line, words)| spread(words).into_iter().map(move |id| (id, line)))
        .collect()
}

/// A row of the promises: the functions that it speaks of, as the trace names them.
pub struct Promise {
    pub line: usize,
    /// The names of its first cell that no function has.
    pub unknown: Vec<String>,
    pub functions: Vec<String>,
    /// Its fourth cell: what is refused.
    pub refusals: String,
}

/// The functions that the page lists as parts: `crate module::name` in the first cell of a row below
/// the heading 'Parts'.
pub fn parts(page: &str) -> Vec<String> {
    let behind = |line: &&str| !line.starts_with("## Parts");
    let rows = page.lines().skip_while(behind).skip(1);
    let rows = rows.take_while(|line| !line.starts_with("## "));
    let rows = rows.filter(|line| line.starts_with("| `"));
    rows.flat_map(|line| names(cells(line).first().unwrap_or(&"")))
        .collect()
}

/// The functions of a crate that a name of the page means: `module::name`, or `Type::name`.
fn meant(tree: &Tree, krate: &str, name: &str) -> Vec<String> {
    let whole = format!("{krate} {name}");
    let end = format!("::{name}");
    let front = format!("{krate} ");
    let is = |f: &&String| **f == whole || (f.starts_with(&front) && f.ends_with(&end));
    tree.functions.keys().filter(is).cloned().collect()
}

/// The rows below a crate's heading. A name without `::` is in the module of the one before it.
pub fn promises(page: &str, tree: &Tree) -> Vec<Promise> {
    let mut krate = String::new();
    let mut found = Vec::new();
    for (i, line) in page.lines().enumerate() {
        if let Some(heading) = line.strip_prefix("## ") {
            krate = if tree.crates.contains(heading) {
                heading.into()
            } else {
                String::new()
            };
        }
        if krate.is_empty() || !line.starts_with("| `") {
            continue;
        }
        let mut module = String::new();
        let mut promise = Promise {
            line: i + 1,
            unknown: Vec::new(),
            functions: Vec::new(),
            refusals: cells(line).get(3).unwrap_or(&"").to_string(),
        };
        for name in names(cells(line).first().unwrap_or(&"")) {
            let name = if name.contains("::") {
                name
            } else {
                format!("{module}::{name}")
            };
            module = name.rsplit_once("::").map_or("", |(front, _)| front).into();
            let functions = meant(tree, &krate, &name);
            if functions.is_empty() {
                promise.unknown.push(name);
            }
            promise.functions.extend(functions);
        }
        found.push(promise);
    }
    found
}

/// A row with another last cell.
fn with_last(line: &str, cell: &str) -> String {
    let inside = line.strip_suffix(" |").and_then(|l| l.rsplit_once(" | "));
    inside.map_or(line.into(), |(front, _)| format!("{front} | {cell} |"))
}

/// The trace with its last column made from the edits.
pub fn traced(page: &str, tree: &Tree) -> String {
    let made = |line: &str| {
        let rule = cells(line).first().map(|id| id.to_string());
        let Some(rule) = rule.filter(|id| is_rule(id)) else {
            return line.to_string();
        };
        let breaking = tree.edits.iter().filter(|edit| edit.rules.contains(&rule));
        with_last(
            line,
            &Edit::cell(breaking.map(|e| format!("{} {}", e.krate, e.name))),
        )
    };
    page.lines().map(|line| made(line) + "\n").collect()
}

const CLOSING: &str = "Edits that break a definition or a theorem and no function:";

/// The edits that break no function, by crate.
fn closing(tree: &Tree) -> String {
    let others: Vec<_> = tree
        .edits
        .iter()
        .filter(|e| !e.breaks.iter().any(|b| b.contains("::")))
        .collect();
    let crates: BTreeSet<_> = others.iter().map(|edit| &edit.krate).collect();
    let of = |krate: &&String| {
        let names = others
            .iter()
            .filter(|e| e.krate == **krate)
            .map(|e| e.name.clone());
        format!(" in `crates/{krate}/must-fail` {}", Edit::cell(names))
    };
    let parts: Vec<_> = crates.iter().map(of).collect();
    format!("{CLOSING}{}.", parts.join(";"))
}

/// The promises with their last column, and the closing line, made from the edits.
pub fn promised(page: &str, tree: &Tree) -> String {
    let mut lines: Vec<String> = page.lines().map(String::from).collect();
    for promise in promises(page, tree) {
        let broken = |edit: &&Edit| {
            let mut breaks = edit.breaks.iter().map(|b| format!("{} {b}", edit.krate));
            breaks.any(|b| promise.functions.contains(&b))
        };
        let cell = Edit::cell(tree.edits.iter().filter(broken).map(|e| e.name.clone()));
        let line = &mut lines[promise.line - 1];
        *line = with_last(line, &cell);
    }
    for line in lines.iter_mut().filter(|line| line.starts_with(CLOSING)) {
        *line = closing(tree);
    }
    lines.join("\n") + "\n"
}
