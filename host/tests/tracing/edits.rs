//! The edits that must fail: each says in its first line what it breaks, which rules, and what the
//! wrong program does.

use super::pages::is_rule;

/// The form of an edit's first line.
pub const FORM: &str = "`# module::function, R1: what the wrong program does`, or with \
    `Module.name` of a definition or theorem, and with more names or rules between commas";

pub struct Edit {
    pub krate: String,
    pub name: String,
    /// Its path in the repository.
    pub path: String,
    /// The functions, definitions or theorems of its crate that it breaks.
    pub breaks: Vec<String>,
    pub rules: Vec<String>,
}

/// What a first line says: what is broken, and the rules.
pub fn first_line(line: &str) -> Option<(Vec<String>, Vec<String>)> {
    let (front, wrong) = line.strip_prefix("# ")?.split_once(": ")?;
    let words: Vec<String> = front.split(", ").map(String::from).collect();
    let count = words.iter().take_while(|word| !is_rule(word)).count();
    let (breaks, rules) = words.split_at(count);
    let named = |word: &String| !word.contains(' ') && (word.contains("::") || word.contains('.'));
    let good = !breaks.is_empty() && breaks.iter().all(named);
    let good = good && !rules.is_empty() && rules.iter().all(|word| is_rule(word));
    (good && !wrong.trim().is_empty()).then(|| (breaks.to_vec(), rules.to_vec()))
}

impl Edit {
    /// Names as a cell of a table: each in code, or `-` where there are none.
    pub fn cell(names: impl Iterator<Item = String>) -> String {
        let names: Vec<_> = names.map(|name| format!("`{name}`")).collect();
        if names.is_empty() {
            "-".into()
        } else {
            names.join(", ")
        }
    }
}
