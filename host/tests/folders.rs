//! The folders of `host/src`: each uses itself and those that `lib.rs` names before it.

use std::fs;
use std::path::{Path, PathBuf};

/// The files under a folder.
fn files(folder: &Path) -> Vec<PathBuf> {
    let entries = fs::read_dir(folder).expect("a folder");
    let paths = entries.map(|entry| entry.expect("an entry").path());
    paths
        .flat_map(|path| match path.is_dir() {
            true => files(&path),
            false => vec![path],
        })
        .collect()
}

#[test]
fn no_folder_uses_one_behind_it() {
    let source = Path::new(env!("CARGO_MANIFEST_DIR")).join("src");
    let root = fs::read_to_string(source.join("lib.rs")).expect("lib.rs");
    let named = root
        .lines()
        .filter_map(|line| line.strip_prefix("pub mod "));
    let folders: Vec<&str> = named.map(|name| name.trim_end_matches(';')).collect();
    assert_eq!(folders.first(), Some(&"second"));
    for (index, folder) in folders.iter().enumerate() {
        for path in files(&source.join(folder)) {
            let text = fs::read_to_string(&path).expect("it is read");
            for behind in &folders[index + 1..] {
                let used = text.contains(&format!("crate::{behind}::"));
                assert!(!used, "{path:?} uses {behind}");
            }
        }
    }
}
