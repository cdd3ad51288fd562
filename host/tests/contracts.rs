//! docs/CONTRACTS.md against the crates: every exported function has its row, and every row's functions, definitions and must-fail edits are there.
//! Needs the repository alone.

mod tree;

use std::collections::BTreeSet;
use std::path::{Path, PathBuf};
use tree::{crates, files, name, none, paths, quoted, root, table_rows, tables, text};

const CONTRACTS: &str = "docs/CONTRACTS.md";

/// An exported function.
struct Function {
    /// crate::module::Type::function
    path: String,
    requires: bool,
}

/// The path of a source file's items.
fn module(folder: &Path, file: &Path) -> String {
    let inner = file.strip_prefix(folder.join("src")).expect("it stands there");
    let parts = inner.with_extension("");
    let parts = parts.iter().map(|part| part.to_string_lossy().into_owned());
    let parts = parts.filter(|part| part != "lib" && part != "main");
    [name(folder)].into_iter().chain(parts).collect::<Vec<_>>().join("::")
}

fn exported(line: &str) -> Option<&str> {
    let rest = line.trim_start().strip_prefix("pub ")?;
    let rest = rest.strip_prefix("extern \"C\" ").unwrap_or(rest);
    rest.strip_prefix("fn ")?.split(['(', '<']).next()
}

/// The name of the type in a line as `impl<'a> Given<'a> {`.
fn implemented(line: &str) -> Option<&str> {
    let rest = line.strip_prefix("impl")?;
    let rest = match rest.strip_prefix('<') {
        Some(parameters) => parameters.split_once("> ")?.1,
        None => rest.strip_prefix(' ')?,
    };
    rest.split(['<', ' ']).next()
}

fn functions_of(folder: &Path, file: &Path) -> Vec<Function> {
    let source = text(file);
    let lines: Vec<&str> = source.lines().collect();
    let (mut of, mut found) = (module(folder, file), vec![]);
    let outside = of.clone();
    for (i, line) in lines.iter().enumerate() {
        if let Some(of_type) = implemented(line) {
            of = format!("{outside}::{of_type}");
        } else if *line == "}" {
            of = outside.clone();
        } else if let Some(function) = exported(line) {
            let head = lines[i..]
                .iter()
                .map(|line| line.trim())
                .take_while(|line| *line != "}");
            let requires = head
                .take_while(|line| *line != "{")
                .any(|line| line.starts_with("requires "));
            let path = format!("{of}::{function}");
            found.push(Function { path, requires });
        }
    }
    found
}

fn functions() -> Vec<Function> {
    let crates = crates();
    let sources = crates
        .iter()
        .flat_map(|c| files(c, ".rt").into_iter().map(move |file| (c, file)));
    sources.flat_map(|(folder, file)| functions_of(folder, &file)).collect()
}

/// A row of a table whose first column is "function" or "crate".
struct Row {
    /// Of crates, their names
    names: Vec<String>,
    of_crates: bool,
    public: bool,
    /// crate/File.name
    definitions: Vec<String>,
    /// crate/edit
    edits: Vec<String>,
}

fn row(cells: &[&str], of_crates: bool) -> Row {
    let [first, .., definition, edits] = cells else {
        panic!("a row has at least three columns: {cells:?}");
    };
    let names = match of_crates {
        true => quoted(first).map(String::from).collect(),
        false => paths(quoted(first), "::", "(no path)"),
    };
    let home = names.first().unwrap_or_else(|| panic!("a row without a name: {first}"));
    let home = home.split("::").next().expect("it has a part").to_string();
    let in_home = |d: String| if d.contains('/') { d } else { format!("{home}/{d}") };
    let definitions = paths(quoted(definition), ".", "(no file)");
    let edits = edits.split([' ', ',', ';']).filter(|edit| !edit.is_empty());
    Row {
        of_crates,
        public: first.contains("(public"),
        definitions: definitions.into_iter().map(in_home).collect(),
        edits: paths(edits, "/", &home),
        names,
    }
}

fn rows() -> Vec<Row> {
    let of = |name: &str| {
        let rows = table_rows(CONTRACTS, name).into_iter();
        let of_crates = name == "crate";
        rows.map(move |cells| row(&cells.iter().map(String::as_str).collect::<Vec<_>>(), of_crates))
    };
    of("function").chain(of("crate")).collect()
}

#[test]
fn every_function_has_its_row() {
    let there: BTreeSet<String> = functions().into_iter().map(|f| f.path).collect();
    let mut named = BTreeSet::new();
    let rows = rows();
    let names = rows.iter().filter(|r| !r.of_crates).flat_map(|r| &r.names);
    let twice: Vec<String> = names.filter(|n| !named.insert((*n).clone())).cloned().collect();
    none(
        "exported, and docs/CONTRACTS.md has no row",
        there.difference(&named).cloned(),
    );
    none(
        "named in docs/CONTRACTS.md, and no crate has it",
        named.difference(&there).cloned(),
    );
    none("in two rows of docs/CONTRACTS.md", twice);
}

/// The table of causes has the numbers that `limits` has, under its names.
#[test]
fn every_cause_is_named() {
    let folder = root().join("crates/limits");
    let code = text(&folder.join("src/lib.rt"));
    let (_, rest) = code.split_once("pub enum Refusal {").expect("limits has its refusals");
    let (refusals, _) = rest.split_once("\n}").expect("they end");
    let (numbers, cases) = (
        text(&folder.join("specs/Limits.antt")),
        text(&folder.join("specs/Refusals.antt")),
    );
    let rows = table_rows(CONTRACTS, "number");
    for cells in &rows {
        let [number, _, names, _] = &cells[..] else {
            panic!("a cause has four columns: {cells:?}");
        };
        let (definition, case) = names.split_once(", ").expect("two names");
        let case = case.trim_matches('`');
        let constant = format!("\n    {case} = {number},");
        assert!(refusals.contains(&constant), "Refusal has no {constant}");
        let joined = format!("\nnumber_of {case} = {definition}\n");
        assert!(cases.contains(&joined), "limits has no {joined}");
        let definition = format!("\n{definition} = {number}\n");
        assert!(numbers.contains(&definition), "limits has no {definition}");
    }
    assert_eq!(
        rows.len(),
        refusals.matches(" = ").count(),
        "causes in the table, in limits"
    );
}

#[test]
fn a_public_call_requires_nothing() {
    let rows = rows();
    let public: Vec<&String> = rows.iter().filter(|r| r.public).flat_map(|r| &r.names).collect();
    assert!(!public.is_empty());
    let functions = functions()
        .into_iter()
        .filter(|f| f.requires && public.contains(&&f.path));
    none("public, with a requires", functions.map(|f| f.path));
}

#[test]
fn every_edit_is_named() {
    let edits = |c: &PathBuf| files(&c.join("must-fail"), ".edit");
    let label = |c: &Path, edit: &PathBuf| format!("{}/{}", name(c), name(edit));
    let crates = crates();
    let there = crates
        .iter()
        .flat_map(|c| edits(c).into_iter().map(|edit| label(c, &edit)));
    let there: BTreeSet<String> = there.collect();
    let named: BTreeSet<String> = rows().into_iter().flat_map(|r| r.edits).collect();
    none(
        "edits without a row in docs/CONTRACTS.md",
        there.difference(&named).cloned(),
    );
    none(
        "edits in docs/CONTRACTS.md that no crate has",
        named.difference(&there).cloned(),
    );
}

/// Each `old:` text stands exactly once in the file named before it, as the replacements before it leave the file.
fn applies(folder: &Path, edit: &Path) -> bool {
    let (mut file, mut old, mut pairs) = (String::new(), String::new(), 0);
    for line in text(edit).lines() {
        if let Some(path) = line.strip_prefix("file: ") {
            file = text(&folder.join(path));
        } else if let Some(text) = line.strip_prefix("old: ") {
            old = text.to_string();
        } else if let Some(new) = line.strip_prefix("new:") {
            if file.matches(&old).count() != 1 {
                return false;
            }
            file = file.replacen(&old, new.strip_prefix(' ').unwrap_or(new), 1);
            pairs += 1;
        }
    }
    pairs > 0
}

#[test]
fn every_edit_applies() {
    for folder in crates() {
        let edits = files(&folder.join("must-fail"), ".edit");
        let lost = edits.iter().filter(|edit| !applies(&folder, edit));
        none(
            "edits whose old text isn't there once",
            lost.map(|edit| edit.display().to_string()),
        );
    }
}

/// Whether crate/File.name is declared in the crate's specs/.
fn declared(definition: &str) -> bool {
    let Some((home, rest)) = definition.split_once('/') else {
        return false;
    };
    let Some((file, item)) = rest.split_once('.') else {
        return false;
    };
    let path = root().join(format!("crates/{home}/specs/{file}.antt"));
    let declares = |line: &str| {
        let words: Vec<&str> = line.split_whitespace().collect();
        let public = words.iter().position(|word| *word == "pub");
        public.is_some_and(|at| words[at..].iter().take(3).any(|word| *word == item))
    };
    path.is_file() && text(&path).lines().any(declares)
}

#[test]
fn every_definition_is_declared() {
    let definitions = rows().into_iter().flat_map(|r| r.definitions);
    none(
        "definitions that no specs/ declares",
        definitions.filter(|d| !declared(d)),
    );
}

#[test]
fn every_crate_stands_in_a_row() {
    let rows = rows();
    let names = rows
        .iter()
        .flat_map(|r| &r.names)
        .map(|n| n.split("::").next().expect("it has a part"));
    let named: BTreeSet<&str> = names.collect();
    let libraries = crates().into_iter().filter(|c| c.join("src/lib.rt").is_file());
    let lost = libraries.map(|c| name(&c)).filter(|c| !named.contains(c.as_str()));
    none("libraries without a row in docs/CONTRACTS.md", lost);
    let of_crates = rows.iter().filter(|r| r.of_crates).flat_map(|r| &r.names);
    let unknown = of_crates.filter(|c| !root().join("crates").join(c).is_dir());
    none("crates in docs/CONTRACTS.md that aren't there", unknown.cloned());
}

/// Every table of the document is read by some test above.
#[test]
fn every_table_is_known() {
    let tables = tables(&text(&root().join(CONTRACTS)));
    let unknown = tables.iter().map(|table| table[0][0].clone());
    none(
        "tables of docs/CONTRACTS.md that no test reads",
        unknown.filter(|first| !["function", "crate", "number"].contains(&first.as_str())),
    );
}
