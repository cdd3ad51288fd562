//! The repository's files and the tables of its documents, for the tests that read them.

use std::fs;
use std::path::{Path, PathBuf};

pub fn root() -> PathBuf {
    Path::new(env!("CARGO_MANIFEST_DIR")).join("..")
}

pub fn text(path: &Path) -> String {
    fs::read_to_string(path).unwrap_or_else(|e| panic!("{}: {e}", path.display()))
}

/// The files below a folder that end so, in order; none where there is no such folder. What `rt` keeps in out/ is none of the repository's.
pub fn files(folder: &Path, end: &str) -> Vec<PathBuf> {
    let Ok(entries) = fs::read_dir(folder) else {
        return vec![];
    };
    let mut paths: Vec<PathBuf> = entries.map(|e| e.expect("it can be read").path()).collect();
    paths.retain(|path| !path.ends_with("out"));
    paths.sort();
    let below = |path: PathBuf| if path.is_dir() { files(&path, end) } else { vec![path] };
    let mut found: Vec<PathBuf> = paths.into_iter().flat_map(below).collect();
    found.retain(|path| path.to_string_lossy().ends_with(end));
    found
}

/// The crates' folders.
pub fn crates() -> Vec<PathBuf> {
    let folder = root().join("crates");
    let entries = fs::read_dir(&folder).expect("the repository has crates");
    entries.map(|e| e.expect("it can be read").path()).collect()
}

pub fn name(path: &Path) -> String {
    path.file_stem().expect("it has a name").to_string_lossy().into_owned()
}

/// What stands in backquotes.
pub fn quoted(cell: &str) -> impl Iterator<Item = &str> {
    cell.split('`').skip(1).step_by(2)
}

/// Names of which the first is whole; a later one without a separator has the path of the one before it.
pub fn paths<'a>(names: impl Iterator<Item = &'a str>, separator: &str, home: &str) -> Vec<String> {
    let mut folder = home.to_string();
    let mut whole = vec![];
    for name in names {
        let (path, last) = name.rsplit_once(separator).unwrap_or((&folder, name));
        folder = path.to_string();
        whole.push(format!("{folder}{separator}{last}"));
    }
    whole
}

/// The tables of a document, each a list of rows of cells; the first is the head.
pub fn tables(page: &str) -> Vec<Vec<Vec<String>>> {
    let (mut found, mut table) = (vec![], vec![]);
    for line in page.lines().chain([""]) {
        let inner = line.strip_prefix('|').and_then(|line| line.strip_suffix('|'));
        match inner {
            None if table.is_empty() => {}
            None => found.push(std::mem::take(&mut table)),
            Some(_) if line.starts_with("|---") => {}
            Some(inner) => table.push(inner.split('|').map(|cell| cell.trim().to_string()).collect()),
        }
    }
    found
}

/// The rows of a document's tables whose first column has this name.
pub fn table_rows(document: &str, name: &str) -> Vec<Vec<String>> {
    let tables = tables(&text(&root().join(document)));
    let of_name = tables.into_iter().filter(|table| table[0][0] == name);
    of_name.flat_map(|table| table.into_iter().skip(1)).collect()
}

/// Fails with the list.
pub fn none(what: &str, list: impl IntoIterator<Item = String>) {
    let list: Vec<String> = list.into_iter().collect();
    assert!(list.is_empty(), "{what}:\n  {}", list.join("\n  "));
}
