//! The port's programs and the Rust on the same inputs, line by line.

use std::fs::{self, File};
use std::path::{Path, PathBuf};
use std::process::{Command, ExitCode};

use crate::generate::{self, Case, Format};
use crate::oracle;

/// Cases that share a run of the program.
const BATCH: usize = 100;
const BATCH_BYTES: usize = 1 << 20;

pub fn root() -> PathBuf {
    Path::new(env!("CARGO_MANIFEST_DIR")).join("..")
}

/// Where rt puts a program; another folder for trying the comparison itself.
pub fn bin(program: &str) -> PathBuf {
    let folder = std::env::var("BARSHUNET_BIN").map_or_else(|_| root().join("target/bin"), PathBuf::from);
    folder.join(program)
}

pub fn program_name(name: &str) -> String {
    if matches!(name, "listen" | "uplink") {
        name.to_string()
    } else {
        format!("replay_{name}")
    }
}

/// All is equal: 0; a difference: 1. With a row only the cases of it are run.
pub fn compare(names: &[&str], seed: u64, count: usize, row: Option<u8>) -> Result<ExitCode, String> {
    let mut equal = true;
    for name in names {
        let format = generate::format(name).ok_or(format!("there is no format {name}"))?;
        if row.is_some_and(|row| row >= format.rows) {
            return Err(format!("{name} has {} rows", format.rows));
        }
        let run = Run::new(format, seed)?;
        equal &= run.all(&mut format.choose(seed, count, row))?;
    }
    Ok(ExitCode::from(u8::from(!equal)))
}

struct Run {
    format: &'static Format,
    seed: u64,
    program: PathBuf,
    folder: PathBuf,
}

/// Where two outputs part: line number from 0, the Rust's line, the port's.
struct Difference {
    at: usize,
    rust: String,
    port: String,
}

impl Run {
    fn new(format: &'static Format, seed: u64) -> Result<Self, String> {
        let program = bin(&program_name(format.name));
        if !program.is_file() {
            let name = program_name(format.name);
            return Err(format!("{} is not there; tools/build {name} makes it", program.display()));
        }
        let folder = root().join("target/compare");
        fs::create_dir_all(&folder).map_err(|e| format!("{}: {e}", folder.display()))?;
        Ok(Self {
            format,
            seed,
            program,
            folder,
        })
    }

    fn all(&self, cases: &mut dyn Iterator<Item = Case>) -> Result<bool, String> {
        let mut first = 0;
        loop {
            let batch = self.batch(cases);
            if batch.is_empty() {
                println!("{}: {first} cases, all equal", self.format.name);
                return Ok(true);
            }
            if self.differs(&batch, first)? {
                return Ok(false);
            }
            first += batch.len();
        }
    }

    /// The next cases that share a run.
    fn batch(&self, cases: &mut dyn Iterator<Item = Case>) -> Vec<Case> {
        let most = if self.format.stream { 1 } else { BATCH };
        let (mut batch, mut bytes) = (vec![], 0);
        for case in cases.take(most) {
            bytes += case.bytes.len();
            let last = case.short || bytes > BATCH_BYTES;
            batch.push(case);
            if last {
                break;
            }
        }
        batch
    }

    /// Runs both sides on the cases, `first` the first one's index; says where they part.
    fn differs(&self, cases: &[Case], first: usize) -> Result<bool, String> {
        let input: Vec<u8> = cases.iter().flat_map(|c| &c.bytes).copied().collect();
        let Some(found) = self.difference(&input)? else {
            return Ok(false);
        };
        let mut lines = 0;
        for (index, case) in cases.iter().enumerate() {
            lines += self.answers(&case.bytes).lines().count();
            if lines > found.at || index + 1 == cases.len() {
                return self.report(first + index, case, &input, &found);
            }
        }
        Ok(true)
    }

    /// Names the case, and stores it alone where it shows the difference alone, else the whole run's input.
    fn report(&self, index: usize, case: &Case, input: &[u8], found: &Difference) -> Result<bool, String> {
        let name = self.format.name;
        let alone = self.difference(&case.bytes)?;
        let (bytes, found) = match &alone {
            Some(alone) => (case.bytes.as_slice(), alone),
            None => (input, found),
        };
        let file = self.folder.join(format!("{name}-{}-{index}.bin", self.seed));
        fs::write(&file, bytes).map_err(|e| format!("{}: {e}", file.display()))?;
        println!("{name}: case {index} ({}) differs in line {}", case.label, found.at + 1);
        println!("  Rust: {}", found.rust);
        println!("  port: {}", found.port);
        println!("  input: {}", file.display());
        Ok(true)
    }

    fn answers(&self, input: &[u8]) -> String {
        oracle::lines(self.format.name, input).expect("every generated format has an oracle")
    }

    fn difference(&self, input: &[u8]) -> Result<Option<Difference>, String> {
        let rust = self.answers(input);
        let port = self.port(input)?;
        if rust == port {
            return Ok(None);
        }
        let (mut r, mut p) = (rust.lines(), port.lines());
        let mut at = 0;
        loop {
            let pair = (r.next(), p.next());
            if pair.0 != pair.1 || pair.0.is_none() {
                let text = |line: Option<&str>| line.unwrap_or("(nothing more)").to_string();
                let (rust, port) = (text(pair.0), text(pair.1));
                return Ok(Some(Difference { at, rust, port }));
            }
            at += 1;
        }
    }

    /// The program's output; how it ended stands in a last line where it didn't end well.
    fn port(&self, input: &[u8]) -> Result<String, String> {
        let file = self.folder.join(format!("{}.input", self.format.name));
        let failed = |e| format!("{}: {e}", self.program.display());
        fs::write(&file, input).map_err(failed)?;
        let stdin = File::open(&file).map_err(failed)?;
        let output = Command::new(&self.program).stdin(stdin).output().map_err(failed)?;
        let mut text = String::from_utf8_lossy(&output.stdout).into_owned();
        if !output.status.success() {
            text += &format!("({})\n", output.status);
        }
        Ok(text)
    }
}
