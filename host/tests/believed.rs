//! docs/ARCHITECTURE.md's tables of what must be believed: closed under what their definitions name, nothing in them for nothing, and the lines counted;
//! and its table of what else stands in specs/.
//! Needs the repository alone.

mod tree;

use std::collections::{BTreeMap, BTreeSet};
use std::path::Path;
use tree::{crates, files, name, none, paths, quoted, root, table_rows, text};

/// A file of a crate's specs/ or proofs/: crate, folder, module.
type Module = (String, String, String);

/// What a file says, by name.
#[derive(Default)]
struct File {
    /// Where an imported name comes from, and how it is called there
    imports: BTreeMap<String, (Module, String)>,
    /// What an alias stands for
    aliases: BTreeMap<String, Module>,
    /// The lines of each definition
    definitions: BTreeMap<String, Vec<String>>,
    /// The type of each constructor
    constructors: BTreeMap<String, String>,
    /// Lines of definition, without comments and imports
    lines: usize,
}

/// crate, folder and module of a path as `Rattle.ledger.specs.Causes`; none of a library's.
fn module(path: &str) -> Option<Module> {
    let (home, rest) = path.strip_prefix("Rattle.")?.split_once('.')?;
    let (folder, module) = rest.split_once('.')?;
    Some((home.to_string(), folder.to_string(), module.to_string()))
}

impl File {
    fn import(&mut self, line: &str) {
        let Some(path) = line.trim_end_matches(';').split_once("use ").map(|(_, path)| path) else {
            return;
        };
        if let Some((path, alias)) = path.split_once(" as ").filter(|(path, _)| !path.contains('{')) {
            self.aliases.extend(module(path).map(|m| (alias.to_string(), m)));
            return;
        }
        let Some((from, names)) = path.split_once(".{") else {
            return;
        };
        let Some(from) = module(from) else {
            return;
        };
        for item in names.trim_end_matches('}').split(',') {
            let (there, here) = item.split_once(" as ").unwrap_or((item, item));
            let there = (from.clone(), there.trim().to_string());
            self.imports.insert(here.trim().to_string(), there);
        }
    }

    /// The definition or constructor that a line begins, where it begins one; `inside`: in a definition's body.
    fn begin(&mut self, line: &str, inside: Option<&str>) -> Option<String> {
        let words = line.split_whitespace();
        let mut words = words.skip_while(|word| ["abbrev", "pub", "unfoldable"].contains(word));
        match (words.next()?, inside) {
            ("record" | "data", None) => words.next().map(String::from),
            ("unfolding" | "module" | "where" | "infixl" | "infixr", None) => None,
            (name, None) => Some(name.to_string()),
            (name, Some(data)) if words.next() == Some(":") => {
                self.constructors.insert(name.to_string(), data.to_string());
                None
            }
            _ => None,
        }
    }

    fn read(path: &Path) -> File {
        let (mut file, mut margin, mut current, mut of_data) = (File::default(), 0, String::new(), false);
        for line in text(path).lines() {
            let line = line.split(" -- ").next().expect("it has a part");
            if line.trim().is_empty() || line.trim_start().starts_with("--") || line.starts_with("pub mod ") {
                continue;
            }
            if line.starts_with("use ") || line.starts_with("pub use ") {
                file.import(line);
                continue;
            }
            file.lines += 1;
            if line.starts_with("module ") {
                margin = 2;
                continue;
            }
            let indent = line.len() - line.trim_start().len();
            margin = margin.min(indent);
            let inside = (margin < indent && of_data).then(|| current.clone());
            if margin < indent && inside.is_none() {
                file.definitions
                    .entry(current.clone())
                    .or_default()
                    .push(line.to_string());
                continue;
            }
            if let Some(begun) = file.begin(line, inside.as_deref()) {
                current = begun;
                of_data = line.split_whitespace().any(|word| word == "data");
            }
            file.definitions
                .entry(current.clone())
                .or_default()
                .push(line.to_string());
        }
        file
    }
}

/// The names in a text that may be others' definitions; of a projection the record.
fn names(line: &str) -> impl Iterator<Item = &str> {
    let words = line.split(|c: char| c.is_whitespace() || "(){}[],;⌜⌝".contains(c));
    words.filter(|word| !word.is_empty() && !word.starts_with('.'))
}

struct Tree {
    files: BTreeMap<Module, File>,
    seen: BTreeSet<(Module, String)>,
}

impl Tree {
    fn read() -> Tree {
        let mut all = BTreeMap::new();
        for home in crates() {
            for folder in ["specs", "proofs"] {
                let base = home.join(folder);
                for path in files(&base, ".antt") {
                    let inner = path.strip_prefix(&base).expect("it stands there").with_extension("");
                    let module = inner.to_string_lossy().replace('/', ".");
                    all.insert((name(&home), folder.to_string(), module), File::read(&path));
                }
            }
        }
        Tree {
            files: all,
            seen: BTreeSet::new(),
        }
    }

    /// Marks what a name of a file stands for, and all that it names. Laws of proofs/, which don't unfold, are proved and need no belief.
    fn visit(&mut self, module: &Module, name: &str) {
        let Some(file) = self.files.get(module) else {
            return;
        };
        if let Some((from, there)) = file.imports.get(name).cloned() {
            return self.visit(&from, &there);
        }
        let name = file.constructors.get(name).map_or(name, |data| data);
        let Some(lines) = file.definitions.get(name).cloned() else {
            return;
        };
        let opens = ["abbrev ", "unfoldable ", "record ", "data ", "pub record ", "pub data "];
        if module.1 == "proofs" && !opens.iter().any(|word| lines[0].trim_start().starts_with(word)) {
            return;
        }
        if self.seen.insert((module.clone(), name.to_string())) {
            lines.iter().for_each(|line| self.visit_line(module, line));
        }
    }

    fn visit_line(&mut self, module: &Module, line: &str) {
        for word in names(line) {
            let alias = word.split_once('.');
            let alias = alias.and_then(|(a, rest)| Some((self.files[module].aliases.get(a)?.clone(), rest)));
            match alias {
                Some((from, rest)) => self.visit(&from, rest),
                None => {
                    self.visit(module, word.split('.').next().expect("it has a part"));
                    self.visit(module, &format!("◌{word}◌"));
                }
            }
        }
    }

    /// What the contracts of a crate's functions name.
    fn visit_contracts(&mut self, home: &Path, functions: &BTreeSet<String>) {
        for path in files(&home.join("src"), ".rt") {
            let source = text(&path);
            let (mut file, mut inside) = (File::default(), false);
            let uses = source.lines().filter(|line| line.starts_with("ghost use "));
            uses.for_each(|line| file.import(line));
            let module = (name(home), "src".to_string(), path.display().to_string());
            self.files.insert(module.clone(), file);
            for line in source.lines() {
                let head = line
                    .trim_start()
                    .strip_prefix("pub ")
                    .map(|rest| rest.trim_start_matches("extern \"C\" "));
                let function = head
                    .and_then(|head| head.strip_prefix("fn "))
                    .and_then(|rest| rest.split(['(', '<']).next());
                inside = function.map_or(inside, |function| functions.contains(function));
                inside &= line.trim() != "{";
                if inside {
                    self.visit_line(&module, line);
                }
            }
        }
    }

    fn visit_file(&mut self, module: &Module) {
        let all: Vec<String> = self.files[module].definitions.keys().cloned().collect();
        all.iter().for_each(|name| self.visit(module, name));
    }

    /// The files of what is marked; structs and enums of the code are read there.
    fn seen_files(&self) -> BTreeSet<Module> {
        self.seen.iter().map(|(module, _)| module.clone()).collect()
    }
}

/// The functions of docs/CONTRACTS.md that are public, by crate.
fn public() -> BTreeMap<String, BTreeSet<String>> {
    let mut found: BTreeMap<String, BTreeSet<String>> = BTreeMap::new();
    for cells in table_rows("docs/CONTRACTS.md", "function") {
        if cells[0].contains("(public") {
            for path in paths(quoted(&cells[0]), "::", "(no path)") {
                let home = path.split("::").next().expect("it has a part").to_string();
                let function = path.rsplit("::").next().expect("it has a part").to_string();
                found.entry(home).or_default().insert(function);
            }
        }
    }
    found
}

/// The files of a row of the tables: `limits Limits, Answer; receiver Contracts (in `proofs/`)`.
fn listed(cell: &str) -> Vec<Module> {
    let mut found = vec![];
    for part in cell.split("; ") {
        let (home, modules) = part.split_once(' ').unwrap_or_else(|| panic!("no files: {part}"));
        for module in modules.split(", ") {
            let proofs = module.strip_suffix(" (in `proofs/`)");
            let folder = if proofs.is_some() { "proofs" } else { "specs" };
            found.push((
                home.to_string(),
                folder.to_string(),
                proofs.unwrap_or(module).to_string(),
            ));
        }
    }
    found
}

fn label((home, folder, module): &Module) -> String {
    format!("{home} {module} ({folder})")
}

const ARCHITECTURE: &str = "docs/ARCHITECTURE.md";

fn files_of(table: &str) -> BTreeSet<Module> {
    let rows = table_rows(ARCHITECTURE, table);
    assert!(!rows.is_empty(), "docs/ARCHITECTURE.md has no table of a {table}");
    rows.iter().flat_map(|cells| listed(&cells[1])).collect()
}

#[test]
fn what_must_be_believed_is_closed() {
    let (demands, requests) = (files_of("demand"), files_of("request"));
    let all: BTreeSet<Module> = demands.union(&requests).cloned().collect();
    let mut tree = Tree::read();
    none(
        "listed, and not there",
        all.iter().filter(|m| !tree.files.contains_key(m)).map(label),
    );
    for (home, functions) in public() {
        tree.visit_contracts(&root().join("crates").join(home), &functions);
    }
    let file = |home: &str, module: &str| (home.to_string(), "specs".to_string(), module.to_string());
    tree.visit_file(&file("history", "Theorem"));
    tree.visit_file(&file("edges", "Edges"));
    let asked = tree.seen_files();
    none(
        "listed under a demand, and no demand names it",
        demands.difference(&asked).map(label),
    );
    requests.iter().for_each(|module| tree.visit_file(module));
    none(
        "to be believed, and not listed",
        tree.seen_files().difference(&all).map(label),
    );
}

#[test]
fn the_lines_are_counted() {
    let tree = Tree::read();
    let lines = |cell: &str| -> usize {
        listed(cell)
            .iter()
            .map(|m| tree.files.get(m).map_or(0, |f| f.lines))
            .sum()
    };
    let rows = table_rows(ARCHITECTURE, "demand")
        .into_iter()
        .chain(table_rows(ARCHITECTURE, "request"));
    let wrong = rows.filter(|cells| cells[2] != lines(&cells[1]).to_string());
    none(
        "rows whose files have another number of lines",
        wrong.map(|cells| format!("{}: {}", cells[0], lines(&cells[1]))),
    );
}

#[test]
fn every_file_of_specs_has_its_table() {
    let believed: BTreeSet<Module> = files_of("demand").union(&files_of("request")).cloned().collect();
    let beside = files_of("beside it");
    none("in both tables", believed.intersection(&beside).map(label));
    let tree = Tree::read();
    let in_specs = tree.files.keys().filter(|(_, folder, _)| folder == "specs");
    let there: BTreeSet<Module> = in_specs.filter(|(_, _, module)| module != "Lib").cloned().collect();
    let all: BTreeSet<Module> = believed.union(&beside).cloned().collect();
    none("in specs/, and in neither table", there.difference(&all).map(label));
    none("beside it, and not in specs/", beside.difference(&there).map(label));
}

/// Scaffolding, and nothing else, says what it is in its first line.
#[test]
fn scaffolding_says_so() {
    let rows = table_rows(ARCHITECTURE, "beside it");
    let row = rows.iter().find(|cells| cells[0].starts_with("scaffolding"));
    let listed: BTreeSet<Module> = listed(&row.expect("a row of scaffolding")[1]).into_iter().collect();
    let mut said = BTreeSet::new();
    for home in crates() {
        let base = home.join("specs");
        for path in files(&base, ".antt") {
            if text(&path).starts_with("-- Scaffolding. ") {
                said.insert((name(&home), "specs".to_string(), name(&path)));
            }
        }
    }
    none(
        "listed, and its first line doesn't say so",
        listed.difference(&said).map(label),
    );
    none(
        "said in its first line, and not listed",
        said.difference(&listed).map(label),
    );
}
