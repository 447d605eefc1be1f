//! docs/TRACE.md: each rule of docs/RULES.md has its row and its code, or is listed as one without;
//! each name is in the tree, each public function serves a rule, and each edit that must fail says
//! what it breaks.

mod tracing;

use std::collections::{BTreeMap, BTreeSet};
use std::io::Write;
use tracing::edits::{first_line, FORM};
use tracing::pages::{
    cited, parts, promised, promises, rows, rules, traced, uncoded, Row, COLUMNS,
};
use tracing::tree::{block, declared, function, in_input, items, sources, Block, Function, Tree};
use tracing::{none, repository, text};

const RULES: &str = "docs/RULES.md";
const TRACE: &str = "docs/TRACE.md";
const PROMISES: &str = "docs/PROMISES.md";

fn trace() -> Vec<Row> {
    rows(&text(TRACE)).unwrap_or_else(|fault| panic!("{fault}"))
}

/// The line of each number; with a fault for each that stands twice.
fn once(
    page: &str,
    numbers: Vec<(String, usize)>,
    faults: &mut Vec<String>,
) -> BTreeMap<String, usize> {
    let mut found = BTreeMap::new();
    for (id, line) in numbers {
        if let Some(before) = found.insert(id.clone(), line) {
            faults.push(format!(
                "{page}:{line}: {id} stands in line {before} too: keep one"
            ));
        }
    }
    found
}

#[test]
fn each_rule_has_a_row() {
    let mut faults = Vec::new();
    let rules = once(RULES, rules(&text(RULES)), &mut faults);
    let rows = trace();
    let traced = rows
        .iter()
        .map(|row| (row.rule.clone(), row.line))
        .collect();
    let traced = once(TRACE, traced, &mut faults);
    for (id, line) in rules.iter().filter(|(id, _)| !traced.contains_key(*id)) {
        faults.push(format!(
            "{RULES}:{line}: {id} has no row in {TRACE}: write one"
        ));
    }
    for (id, line) in traced.iter().filter(|(id, _)| !rules.contains_key(*id)) {
        faults.push(format!(
            "{TRACE}:{line}: there is no rule {id} in {RULES}: write it, or take the row out"
        ));
    }
    for row in rows
        .iter()
        .filter(|row| row.columns[..4].iter().all(Vec::is_empty))
    {
        faults.push(format!(
            "{TRACE}:{}: {} has no place: name what states, carries out, proves or shows it",
            row.line, row.rule
        ));
    }
    none(&faults);
    let count = |i: usize| rows.iter().filter(|row| !row.columns[i].is_empty()).count();
    let counts: Vec<_> = COLUMNS
        .iter()
        .enumerate()
        .map(|(i, c)| format!("{c} {}", count(i)))
        .collect();
    let _ = writeln!(
        std::io::stderr(),
        "{} rules: {}",
        rows.len(),
        counts.join(", ")
    );
}

/// The names of the trace that are not in the tree.
fn unknown(rows: &[Row], tree: &Tree) -> Vec<String> {
    let mut faults = Vec::new();
    for row in rows {
        for (column, names) in COLUMNS.iter().zip(&row.columns) {
            for name in names.iter().filter(|name| !tree.knows(column, name)) {
                let (line, rule) = (row.line, &row.rule);
                faults.push(format!("{TRACE}:{line}: {rule}, {column}: `{name}` is not in the tree: correct the crate or the name"));
            }
        }
    }
    faults
}

#[test]
fn each_name_is_in_the_tree() {
    none(&unknown(&trace(), &Tree::read()));
}

/// Where a page's list of the rules that no code carries out differs from its rows without code.
fn miscoded(page: &str) -> Vec<String> {
    let mut faults = Vec::new();
    let listed = once(TRACE, uncoded(page), &mut faults);
    let rows = rows(page).unwrap_or_else(|fault| panic!("{fault}"));
    let rows = rows.into_iter().map(|row| (row.rule.clone(), row));
    let rows: BTreeMap<_, _> = rows.collect();
    let bare = |id: &str| rows.get(id).is_some_and(|row| row.columns[1].is_empty());
    for (id, row) in &rows {
        if bare(id) && !listed.contains_key(id) {
            faults.push(format!(
                "{TRACE}:{}: {id} has no code: name it, or list the rule among those that none carries out",
                row.line
            ));
        }
    }
    for (id, line) in listed.iter().filter(|(id, _)| !bare(id)) {
        faults.push(format!(
            "{TRACE}:{line}: {id} is no rule without code: take it out of the list"
        ));
    }
    faults
}

#[test]
fn each_rule_has_code_or_is_listed() {
    none(&miscoded(&text(TRACE)));
}

#[test]
fn each_public_function_has_a_rule() {
    let tree = Tree::read();
    let traced: BTreeSet<_> = trace()
        .into_iter()
        .flat_map(|row| [row.columns[1].clone(), row.columns[2].clone()].concat())
        .collect();
    let page = text(PROMISES);
    let promises = promises(&page, &tree);
    let promised: BTreeSet<_> = promises.iter().flat_map(|p| p.functions.clone()).collect();
    let mut faults = Vec::new();
    for (name, function) in tree.functions.iter().filter(|(_, f)| f.public) {
        if !traced.contains(name) {
            faults.push(format!(
                "{}: no rule names `{name}`: name it in {TRACE}, 'code' or 'proved by'",
                function.at
            ));
        }
        if !promised.contains(name) {
            faults.push(format!(
                "{}: `{name}` has no row: write one in {PROMISES}",
                function.at
            ));
        }
    }
    for promise in promises {
        for name in promise.unknown {
            faults.push(format!(
                "{PROMISES}:{}: `{name}` is no function of this crate: correct it",
                promise.line
            ));
        }
    }
    none(&faults);
}

/// A file and line, taken apart.
fn place(at: &str) -> (&str, usize) {
    let (path, line) = at.rsplit_once(':').expect("a place");
    (path, line.parse().expect("a number"))
}

/// The text of a file from a line on.
fn from(at: &str) -> String {
    let (path, line) = place(at);
    text(path)
        .lines()
        .skip(line - 1)
        .map(|line| line.to_string() + "\n")
        .collect()
}

/// The ghost facts that an implementation says before the method at a line.
fn facts(at: &str) -> Vec<String> {
    let (path, line) = place(at);
    let page = text(path);
    let front: Vec<_> = page.lines().take(line - 1).collect();
    let begun = front
        .iter()
        .rposition(|line| line.starts_with("impl "))
        .unwrap_or(0);
    let said = front[begun..]
        .iter()
        .filter_map(|line| line.trim_start().strip_prefix("ghost "));
    said.filter_map(|line| line.split_once(" = ").map(|(name, _)| name.to_string()))
        .collect()
}

/// The types of states.
const STATES: [&str; 5] = ["Desk", "Master", "Gatherer", "Lister", "Replayer"];

/// The traits of states.
const OF_STATES: [&str; 2] = ["Put", "State"];

/// Whether a function takes a line or a state, by its name and the text of its file from its line on.
fn takes_a_state(name: &str, behind: &str) -> bool {
    let taken = behind.split(')').next().unwrap_or("");
    let takes =
        |kind: &str| taken.contains(&format!(": {kind}")) || taken.contains(&format!(": &{kind}"));
    let of = |state: &&str| {
        let own = ["::", " for "]
            .iter()
            .any(|front| name.contains(&format!("{front}{state}::")));
        let itself = ["(self", "(&self", "(&mut self"]
            .iter()
            .any(|word| taken.contains(word));
        own && itself || takes(state)
    };
    let generic = |kind: &&str| {
        let bound = taken.split_once(&format!(": {kind}"));
        let letter = bound.and_then(|(front, _)| front.rsplit(['<', ' ']).next());
        letter.is_some_and(takes)
    };
    taken.contains("line: u8") || STATES.iter().any(of) || OF_STATES.iter().any(generic)
}

/// The lines of a function's head: its clauses too, and what its body begins with is not read.
fn head(behind: &[&str]) -> Vec<String> {
    let last = |line: &&str| line.ends_with(['{', ';']);
    let end = behind.iter().position(last).unwrap_or(0);
    behind[..=end]
        .iter()
        .map(|line| line.trim_start().to_string())
        .collect()
}

/// A public function that takes a line or a state is a call, which may refuse 15, or is listed as a part.
#[test]
fn each_part_is_listed() {
    let tree = Tree::read();
    let page = text(PROMISES);
    let promises = promises(&page, &tree);
    let calls = promises
        .iter()
        .filter(|p| p.refusals.contains("15") || p.refusals.contains("calls"));
    let calls: BTreeSet<_> = calls.flat_map(|p| p.functions.clone()).collect();
    let parts: BTreeSet<_> = parts(&page).into_iter().collect();
    let mut faults = Vec::new();
    for (name, function) in tree.functions.iter().filter(|(_, f)| f.public) {
        let behind = from(&function.at).replace('\n', " ");
        if name.starts_with("in656 ") || !takes_a_state(name, &behind) {
            continue;
        }
        if calls.contains(name) == parts.contains(name) {
            faults.push(format!("{}: `{name}` takes a line or a state: let it refuse 15, or make it `pub(crate)`, or list it as a part in {PROMISES}", function.at));
        }
    }
    for name in parts {
        if !tree.functions.get(&name).is_some_and(|f| f.public) {
            faults.push(format!(
                "{PROMISES}: `{name}` is no public function: take it out of the parts"
            ));
        }
    }
    none(&faults);
}

/// Whether a line of a function's head begins with a word.
fn has(function: &Function, word: &str) -> bool {
    let source = from(&function.at);
    let lines: Vec<_> = source.lines().collect();
    head(&lines).iter().any(|line| line.starts_with(word))
}

/// Whether a function ensures something: itself, or by the trait's method that it implements, or by the
/// fact `from_gives` of its implementation of `From`.
fn ensures(tree: &Tree, name: &str, function: &Function) -> bool {
    let of = function.of.as_ref().and_then(Block::implemented);
    match (of, tree.implements(name, function)) {
        (_, Some(method)) => has(method, "ensures "),
        (Some("From"), None) => facts(&function.at).iter().any(|fact| fact == "from_gives"),
        _ => has(function, "ensures "),
    }
}

/// No public function asks anything of its caller, and each of a library ensures something; the few
/// of `stdio` that only read or write ensure nothing that could be said (DECISIONS 53).
#[test]
fn each_public_function_asks_nothing() {
    let mut faults = Vec::new();
    let tree = Tree::read();
    for (name, function) in tree.functions.iter().filter(|(_, f)| f.public) {
        if has(function, "requires ") {
            faults.push(format!(
                "{}: `{name}` asks something of its caller",
                function.at
            ));
        }
        if !ensures(&tree, name, function) && !name.starts_with("stdio ") {
            faults.push(format!("{}: `{name}` ensures nothing", function.at));
        }
    }
    none(&faults);
}

#[test]
fn each_edit_says_what_it_breaks() {
    let tree = Tree::read();
    let promises = promises(&text(PROMISES), &tree);
    let promised: BTreeSet<_> = promises.into_iter().flat_map(|p| p.functions).collect();
    let rules: BTreeSet<_> = rules(&text(RULES)).into_iter().map(|(id, _)| id).collect();
    let mut faults = Vec::new();
    for path in &tree.unreadable {
        faults.push(format!("{path}:1: write {FORM}"));
    }
    for edit in &tree.edits {
        for name in &edit.breaks {
            let whole = format!("{} {name}", edit.krate);
            if !promised.contains(&whole) && !tree.declarations.contains(&whole) {
                faults.push(format!("{}:1: `{name}` is no function of {PROMISES}, definition or theorem of {}: name one that it breaks", edit.path, edit.krate));
            }
        }
        for rule in edit.rules.iter().filter(|rule| !rules.contains(*rule)) {
            faults.push(format!(
                "{}:1: there is no rule {rule} in {RULES}: name one that it breaks",
                edit.path
            ));
        }
    }
    none(&faults);
}

/// The last columns of both pages are made from the edits' first lines. `WRITE=1` writes them.
#[test]
fn the_columns_of_edits_are_made_from_the_edits() {
    let tree = Tree::read();
    let mut faults = Vec::new();
    for (path, made) in [
        (TRACE, traced(&text(TRACE), &tree)),
        (PROMISES, promised(&text(PROMISES), &tree)),
    ] {
        if std::env::var_os("WRITE").is_some() {
            std::fs::write(repository(path), &made).expect(path);
        }
        for (i, (is, should)) in text(path).lines().zip(made.lines()).enumerate() {
            if is != should {
                let cell = should
                    .trim_end_matches(" |")
                    .rsplit(" | ")
                    .next()
                    .unwrap_or(should);
                faults.push(format!("{path}:{}: the edits here are {cell}: WRITE=1 cargo test --test trace columns writes them", i + 1));
            }
        }
    }
    none(&faults);
}

#[test]
fn each_cited_rule_is_a_rule() {
    let rules: BTreeSet<_> = rules(&text(RULES)).into_iter().map(|(id, _)| id).collect();
    let mut faults = Vec::new();
    for (path, page) in sources() {
        for (i, line) in page.lines().enumerate() {
            for rule in cited(line)
                .into_iter()
                .filter(|rule| !rules.contains(*rule))
            {
                faults.push(format!(
                    "{path}:{}: there is no rule {rule} in {RULES}: cite one",
                    i + 1
                ));
            }
        }
    }
    none(&faults);
}

/// What the other tests rest on finds what is wrong.
#[test]
fn wrong_lines_are_seen() {
    assert!(first_line("# frame::frame_check, R4, B3: the count is not looked at").is_some());
    for line in [
        "# the count is not looked at",
        "# frame::frame_check: the count is not looked at",
        "# R4: the count is not looked at",
        "# frame::frame_check, R4, the count: it is not looked at",
        "# frame::frame_check, R4:",
        "frame::frame_check, R4: the count is not looked at",
    ] {
        assert!(first_line(line).is_none(), "{line}");
    }
    assert_eq!(declared("abbrev pub lf : Nat"), Some("lf"));
    assert_eq!(
        declared("  pub record Over (x : T) : Type 0 where"),
        Some("Over")
    );
    assert_eq!(declared("-- lf : Nat"), None);
    assert_eq!(
        function("    pub fn start(line: u8) -> Step"),
        Some(("start", true))
    );
    assert_eq!(
        function("fn put_end(out: &mut [u8])"),
        Some(("put_end", false))
    );
    assert_eq!(function("// the fn word(s)"), None);
    assert_eq!(
        block("impl From<Next> for In656Result {"),
        Some(Block::Both("From<Next>".into(), "In656Result".into()))
    );
    assert_eq!(block("impl Desk {"), Some(Block::Type("Desk".into())));
    assert_eq!(
        block("pub trait Put: Copy {"),
        Some(Block::Trait("Put".into(), true))
    );
    assert_eq!(
        block("pub(crate) trait Own {"),
        Some(Block::Trait("Own".into(), false))
    );
    assert_eq!(block("use crate::layout::Put;"), None);
    let input = "a|R|3|x|y\n# figure 4.2, a fault\n# figure 4.20, none\n";
    assert!(in_input(input, "a") && in_input(input, "figure 4.2"));
    assert!(!in_input(input, "figure 4") && !in_input(input, "b") && !in_input(input, "R"));
    let line = "-- A record (rules R1, R4 to R6 and W2; 001 4.4). T1 restarts.";
    assert_eq!(cited(line), ["R1", "R4", "R6", "W2"]);
    assert!(rows("| R1 | `a B.c` | - | - | - | x |\n").is_err());
    assert!(rows("| R1 | `a B.c` | - | - | - |\n").is_err());
    assert!(rows("| rule | stated by | proved by | shown by | must fail |\n").is_err());
    assert!(rows("| R1 | `a B.c`, `a B.d` | - | - | - | - |\n")
        .is_ok_and(|rows| rows[0].columns[0].len() == 2));
}

/// A wrong name of code is found, and a rule without code that is not listed, and the other way round.
#[test]
fn wrong_code_is_seen() {
    let page = "pub const T: [Row; 2] = [\n    Row {\n        kind: b'c',\n    },\n    // 2: x\n];\n// 3: y\nenum E {\n";
    assert_eq!(items(page), ["T", "T row c", "T row 2", "E"]);
    let tree = Tree::read();
    let row = |name: &str| {
        let page = format!("| R1 | - | `{name}` | - | - | - |\n");
        rows(&page).expect("a row")
    };
    let mut known = tree.functions.keys().chain(&tree.items);
    assert!(known.all(|name| unknown(&row(name), &tree).is_empty()));
    let mut tables = tree.items.iter().filter(|name| name.contains(" row "));
    let table = tables.next().expect("a row of a table");
    for name in [
        "reading frame::no_such_function",
        "no_such_crate frame::frame_check",
        "reading Frame.frameChecks",
        &format!("{table}0"),
    ] {
        assert_eq!(unknown(&row(name), &tree).len(), 1, "{name}");
    }
    let list = "## Rules that no code carries out\n\n- R1, R3 to R4: why\n\n## Lines\n\n- R9: x\n";
    let bare = |id: &str| format!("| {id} | - | - | - | - | - |\n");
    let all = [bare("R1"), bare("R3"), bare("R4")].concat();
    assert!(miscoded(&format!("{list}{all}")).is_empty());
    assert_eq!(miscoded(&format!("{list}{all}{}", bare("R5"))).len(), 1);
    assert_eq!(
        miscoded(&format!("{list}{}{}", bare("R1"), bare("R4"))).len(),
        1
    );
    let coded = "| R3 | - | `a b::c` | - | - | - |\n";
    assert_eq!(
        miscoded(&format!("{list}{}{}{coded}", bare("R1"), bare("R4"))).len(),
        1
    );
}
