//! What is in the tree, each thing under the name that the trace gives it.

use super::edits::{first_line, Edit};
use super::{repository, text};
use std::collections::{BTreeMap, BTreeSet};
use std::fs;
use std::path::{Path, PathBuf};

pub struct Function {
    /// It is public, or a method of a public trait, and of a library.
    pub public: bool,
    /// Its file and line.
    pub at: String,
    /// What it is a method of, where it stands in a trait or in an implementation.
    pub of: Option<Block>,
}

/// What a line begins that has methods.
#[derive(Clone, Debug, PartialEq)]
pub enum Block {
    /// `impl Type`.
    Type(String),
    /// `trait Trait`, and whether it is public.
    Trait(String, bool),
    /// `impl Trait for Type`.
    Both(String, String),
}

pub struct Tree {
    pub crates: BTreeSet<String>,
    /// `crate Module.name`: definitions, theorems, and the fields and cases of types.
    pub declarations: BTreeSet<String>,
    /// `crate module::name` or `crate module::Type::name`.
    pub functions: BTreeMap<String, Function>,
    /// `crate module::name` of types and constants, and `crate module::TABLE row key`.
    pub items: BTreeSet<String>,
    /// `host file::name`.
    pub tests: BTreeSet<String>,
    pub edits: Vec<Edit>,
    /// The edits whose first line has not its form.
    pub unreadable: Vec<String>,
}

/// The names in a folder, in order; none where there is no such folder.
fn entries(folder: &Path) -> Vec<PathBuf> {
    let found = fs::read_dir(folder).into_iter().flatten();
    let mut found: Vec<_> = found.map(|e| e.expect("an entry").path()).collect();
    found.sort();
    found
}

/// The files with an extension under a folder.
fn files(folder: &Path, extension: &str) -> Vec<PathBuf> {
    let deep = |path: PathBuf| match path.is_dir() {
        true => files(&path, extension),
        false => vec![path],
    };
    let mut found: Vec<_> = entries(folder).into_iter().flat_map(deep).collect();
    found.retain(|path| path.extension().is_some_and(|e| e == extension));
    found
}

/// A path's words below a folder, without the extension.
fn module(folder: &Path, path: &Path, between: &str) -> String {
    let below = path.strip_prefix(folder).expect("a path below");
    let words: Vec<_> = below
        .with_extension("")
        .iter()
        .map(|w| w.to_string_lossy().into_owned())
        .collect();
    words.join(between)
}

fn read(path: &Path) -> String {
    fs::read_to_string(path).unwrap_or_else(|e| panic!("{}: {e}", path.display()))
}

/// The source files of crates and host, by their paths in the repository, with their texts.
pub fn sources() -> Vec<(String, String)> {
    let root = repository("");
    let kinds = [
        ("crates", "rt"),
        ("crates", "antt"),
        ("host/src", "rs"),
        ("host/tests", "rs"),
    ];
    let found = kinds
        .iter()
        .flat_map(|(folder, kind)| files(&root.join(folder), kind));
    let named = |path: PathBuf| {
        let below = path.strip_prefix(&root).expect("a path below");
        (below.display().to_string(), read(&path))
    };
    found.map(named).collect()
}

/// The last word of a path, without the extension.
fn stem(path: &Path) -> String {
    path.file_stem()
        .expect("a name")
        .to_string_lossy()
        .into_owned()
}

/// The name that a line declares, as `abbrev pub name : ..` or `pub record name (..) ..`.
pub fn declared(line: &str) -> Option<&str> {
    let mut rest = line.trim_start();
    for word in ["abbrev ", "unfoldable ", "pub ", "record ", "data "] {
        rest = rest.strip_prefix(word).unwrap_or(rest);
    }
    let (name, behind) = rest.split_once(' ')?;
    behind
        .trim_start()
        .starts_with([':', '(', '{'])
        .then_some(name)
}

/// The name of the function that a line begins, and whether it is public.
pub fn function(line: &str) -> Option<(&str, bool)> {
    let (front, behind) = line.split_once("fn ")?;
    let front = front.trim();
    let public = front == "pub" || front == "pub extern \"C\"";
    if !public && !front.is_empty() && front != "pub(crate)" {
        return None;
    }
    let end = behind.find(|c: char| !c.is_alphanumeric() && c != '_')?;
    Some((&behind[..end], public))
}

/// The trait, type or implementation of a trait that a line begins.
pub fn block(line: &str) -> Option<Block> {
    if let Some(behind) = line.strip_prefix("impl ") {
        let behind = behind.trim_end_matches([' ', '{']).to_string();
        let both = behind
            .split_once(" for ")
            .map(|(of, by)| Block::Both(of.into(), by.into()));
        return Some(both.unwrap_or(Block::Type(behind)));
    }
    let rest = line.strip_prefix("pub(crate) ").unwrap_or(line);
    let public = rest.strip_prefix("pub ");
    let behind = public.unwrap_or(rest).strip_prefix("trait ")?;
    let end = behind.find(|c: char| !c.is_alphanumeric() && c != '_')?;
    Some(Block::Trait(behind[..end].into(), public.is_some()))
}

impl Block {
    /// Its words in the name of a method.
    pub fn name(&self) -> String {
        match self {
            Block::Type(name) | Block::Trait(name, _) => name.clone(),
            Block::Both(of, by) => format!("{of} for {by}"),
        }
    }

    /// The trait of an implementation, without what it is filled with.
    pub fn implemented(&self) -> Option<&str> {
        match self {
            Block::Both(of, _) => of.split('<').next(),
            _ => None,
        }
    }
}

/// The name of the type or constant that a line begins.
pub fn item(line: &str) -> Option<&str> {
    let rest = line.strip_prefix("pub(crate) ").unwrap_or(line);
    let rest = rest.strip_prefix("pub ").unwrap_or(rest);
    let mut kinds = ["const ", "enum ", "struct ", "type "].iter();
    let behind = kinds.find_map(|kind| rest.strip_prefix(kind))?;
    let end = behind.find(|c: char| !c.is_alphanumeric() && c != '_')?;
    Some(&behind[..end])
}

/// The key of the row that a line of a table begins: its type, or the number in the comment before it.
fn key(line: &str) -> Option<&str> {
    let line = line.trim_start();
    if let Some(kind) = line.strip_prefix("kind: b'") {
        return kind.strip_suffix("',");
    }
    let (number, _) = line.strip_prefix("// ")?.split_once(": ")?;
    Some(number)
}

/// The types and constants of a source, and `TABLE row key` for each row of a table.
pub fn items(page: &str) -> Vec<String> {
    let mut found = Vec::new();
    let mut table = None;
    for line in page.lines() {
        if let Some(name) = item(line) {
            found.push(name.to_string());
            table = line.ends_with("= [").then_some(name);
        } else if line == "];" {
            table = None;
        }
        let row = table.zip(key(line));
        found.extend(row.map(|(table, key)| format!("{table} row {key}")));
    }
    found
}

impl Tree {
    pub fn read() -> Self {
        let folders = entries(&repository("crates"));
        let mut tree = Tree {
            crates: folders.iter().map(|folder| stem(folder)).collect(),
            declarations: BTreeSet::new(),
            functions: BTreeMap::new(),
            items: BTreeSet::new(),
            tests: BTreeSet::new(),
            edits: Vec::new(),
            unreadable: Vec::new(),
        };
        for folder in folders {
            tree.read_crate(&folder);
        }
        tree.hide();
        for path in entries(&repository("host/tests"))
            .iter()
            .filter(|path| path.is_file())
        {
            let page = read(path);
            let names = page.lines().filter_map(|line| line.strip_prefix("fn "));
            let names = names.filter_map(|line| line.split_once('(').map(|(name, _)| name));
            tree.tests
                .extend(names.map(|name| format!("host {}::{name}", stem(path))));
        }
        tree
    }

    fn read_crate(&mut self, folder: &Path) {
        let krate = stem(folder);
        for part in ["specs", "proofs"] {
            let part = folder.join(part);
            for path in files(&part, "antt") {
                let module = module(&part, &path, ".");
                let page = read(&path);
                let names = page.lines().filter_map(declared);
                self.declarations
                    .extend(names.map(|name| format!("{krate} {module}.{name}")));
            }
        }
        self.read_functions(&krate, &folder.join("src"));
        for path in files(&folder.join("must-fail"), "edit") {
            self.read_edit(&krate, &path);
        }
    }

    fn read_functions(&mut self, krate: &str, src: &Path) {
        let library = src.join("lib.rt").is_file();
        for path in files(src, "rt") {
            let module = module(src, &path, "::");
            let mut of = None;
            let page = read(&path);
            let named = items(&page).into_iter();
            self.items
                .extend(named.map(|name| format!("{krate} {module}::{name}")));
            for (i, line) in page.lines().enumerate() {
                if let Some(begun) = block(line) {
                    of = Some(begun);
                } else if line == "}" {
                    of = None;
                } else if let Some((name, public)) = function(line) {
                    let at = format!(
                        "crates/{krate}/src/{}.rt:{}",
                        module.replace("::", "/"),
                        i + 1
                    );
                    let open = match &of {
                        Some(Block::Trait(_, open)) => *open,
                        Some(Block::Both(..)) => true,
                        _ => public,
                    };
                    let front = of.as_ref().map_or(String::new(), |b| b.name() + "::");
                    let function = Function {
                        public: open && library,
                        at,
                        of: of.clone(),
                    };
                    let name = format!("{krate} {module}::{front}{name}");
                    self.functions.insert(name, function);
                }
            }
        }
    }

    /// Takes what implements a trait that is not public out of the public functions.
    fn hide(&mut self) {
        let hidden = |f: &Function| match &f.of {
            Some(Block::Trait(name, false)) => Some(name.clone()),
            _ => None,
        };
        let hidden: BTreeSet<_> = self.functions.values().filter_map(hidden).collect();
        for function in self.functions.values_mut() {
            let of = function.of.as_ref().and_then(Block::implemented);
            function.public &= !of.is_some_and(|name| hidden.contains(name));
        }
    }

    /// The method of the repository's own trait that this function implements.
    pub fn implements(&self, name: &str, function: &Function) -> Option<&Function> {
        let of = function.of.as_ref().and_then(Block::implemented)?;
        let end = format!("::{of}::{}", name.rsplit_once("::")?.1);
        let mut own = self.functions.iter();
        let is = |f: &Function| matches!(f.of, Some(Block::Trait(..)));
        own.find(|(name, f)| is(f) && name.ends_with(&end))
            .map(|(_, f)| f)
    }

    fn read_edit(&mut self, krate: &str, path: &Path) {
        let name = stem(path);
        let at = format!("crates/{krate}/must-fail/{name}.edit");
        match first_line(read(path).lines().next().unwrap_or("")) {
            Some((breaks, rules)) => {
                let krate = krate.into();
                self.edits.push(Edit {
                    krate,
                    name,
                    path: at,
                    breaks,
                    rules,
                });
            }
            None => self.unreadable.push(at),
        }
    }

    /// Whether a name that stands in this column of the trace is in the tree.
    pub fn knows(&self, column: &str, name: &str) -> bool {
        let stated = || self.declarations.contains(name);
        let function = || self.functions.contains_key(name);
        match column {
            "stated by" => stated(),
            "code" => function() || self.items.contains(name),
            "proved by" => stated() || function(),
            "shown by" => self.shows(name),
            _ => {
                let mut edits = self.edits.iter();
                edits.any(|e| format!("{} {}", e.krate, e.name) == name)
            }
        }
    }

    /// Whether a run is in the tree: a test of the host, a sample, or in a program's standard input
    /// a row by its first field, or a title by its front.
    pub fn shows(&self, run: &str) -> bool {
        let Some((of, name)) = run.split_once(' ') else {
            return false;
        };
        match of {
            "host" => self.tests.contains(run),
            "samples" => repository("samples").join(name).is_file(),
            _ => self.crates.contains(of) && in_input(&text(&format!("crates/{of}/stdin")), name),
        }
    }
}

/// Whether one title of a program's input begins with this, or some row has it as its first field.
pub fn in_input(input: &str, name: &str) -> bool {
    let titled = |row: &&str| {
        let behind = row
            .strip_prefix("# ")
            .and_then(|title| title.strip_prefix(name));
        behind.is_some_and(|b| !b.starts_with(|c: char| c.is_alphanumeric()))
    };
    input.lines().filter(titled).count() == 1
        || input
            .lines()
            .any(|row| row.split('|').next() == Some(name) && row.contains('|'))
}
