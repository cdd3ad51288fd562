//! Rows that run a program of the port on an input: its start and its reading are in the time. The Rust runs here, on bytes in memory.

use std::fs::{self, File};
use std::hint::black_box;
use std::path::Path;
use std::process::Command;

use super::{Row, Unit, listen, receiver, tracker};
use crate::compare::{bin, root};
use crate::generate::load;
use crate::oracle;

pub fn rows() -> Result<Vec<Row>, String> {
    let mut rows = vec![listen::row()?];
    rows.extend(receiver::rows()?);
    rows.push(bits()?);
    rows.extend(tracker::rows()?);
    Ok(rows)
}

/// Lists of bits that can't be repaired, each with its record or none.
fn bits() -> Result<Row, String> {
    let input = load::beyond_repair(500);
    let same = input.clone();
    let rust = move || oracle::lines("bits", &same).expect("it is a format");
    row(
        "bits",
        "500 lists beyond repair".to_string(),
        "replay_bits",
        &input,
        rust,
    )
}

/// Both sides must print the same. The Rust's side is what makes its text.
pub fn row(
    of: &'static str,
    what: String,
    program: &str,
    input: &[u8],
    rust: impl Fn() -> String + 'static,
) -> Result<Row, String> {
    let folder = root().join("target/bench");
    let file = folder.join(format!("{of}-{what}.bin").replace([' ', ',', '/', '`'], "-"));
    let failed = |e| format!("{}: {e}", file.display());
    fs::create_dir_all(&folder).map_err(failed)?;
    fs::write(&file, input).map_err(failed)?;
    let path = bin(program);
    let there = path.is_file();
    if !there {
        eprintln!("{} is not there; tools/build {program} makes it", path.display());
    } else if printed(&path, &file) != rust() {
        return Err(format!("{of}, {what}: the port does not print what the Rust does"));
    }
    Ok(Row {
        of,
        what,
        unit: Unit::Run,
        rust: Box::new(move || drop(black_box(rust()))),
        port: there.then(|| -> Box<dyn Fn()> { Box::new(move || drop(black_box(printed(&path, &file)))) }),
    })
}

/// What a program prints for an input.
fn printed(program: &Path, input: &Path) -> String {
    let stdin = File::open(input).expect("the input was written");
    let output = Command::new(program).stdin(stdin).output();
    let output = output.expect("the program can be run");
    String::from_utf8(output.stdout).expect("the program prints text")
}
