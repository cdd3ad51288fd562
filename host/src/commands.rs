//! The words after `host`, and what each runs.

use std::io::{self, Read, Write};
use std::process::ExitCode;

use crate::{bench, compare, draw, generate, oracle, sample, vectors};

const USAGE: &str = "usage: oracle NAME
       gen NAME [--seed N] [--cases N] [--case K]
       compare NAME.. [--seed N] [--cases N] [--row N]
       sample NAME.. | sample frames
       bench [WORD..]
       draw
       recording";

/// What the flags say, or their defaults.
struct Flags {
    seed: u64,
    cases: usize,
    case: Option<usize>,
    row: Option<u8>,
}

pub fn run(words: &[String]) -> ExitCode {
    let words: Vec<&str> = words.iter().map(String::as_str).collect();
    let flags_from = words.iter().position(|w| w.starts_with("--")).unwrap_or(words.len());
    let (words, flags) = words.split_at(flags_from);
    command(words, flags).unwrap_or_else(|why| {
        eprintln!("{why}");
        ExitCode::from(2)
    })
}

fn command(words: &[&str], flags: &[&str]) -> Result<ExitCode, String> {
    let flags = read_flags(flags)?;
    match words {
        ["oracle", name] => print_answers(name),
        ["gen", name] => print_inputs(name, &flags),
        ["compare", names @ ..] if !names.is_empty() => compare::compare(names, flags.seed, flags.cases, flags.row),
        ["sample", "frames"] => vectors::write(),
        ["sample", names @ ..] if !names.is_empty() => sample::write(names),
        ["bench", words @ ..] => bench::run(words),
        ["draw"] => print(draw::signal().as_bytes()),
        ["recording"] => print(&generate::explain::recording()),
        _ => Err(USAGE.to_string()),
    }
}

fn read_flags(words: &[&str]) -> Result<Flags, String> {
    let mut flags = Flags {
        seed: 1,
        cases: 200,
        case: None,
        row: None,
    };
    for pair in words.chunks(2) {
        let [flag, number] = pair else {
            return Err(USAGE.to_string());
        };
        let number: u64 = number.parse().map_err(|_| USAGE)?;
        match *flag {
            "--seed" => flags.seed = number,
            "--cases" => flags.cases = number as usize,
            "--case" => flags.case = Some(number as usize),
            "--row" => flags.row = Some(number.try_into().map_err(|_| USAGE)?),
            _ => return Err(USAGE.to_string()),
        }
    }
    Ok(flags)
}

/// Prints the Rust's lines for standard input.
fn print_answers(name: &str) -> Result<ExitCode, String> {
    let mut input = vec![];
    io::stdin().read_to_end(&mut input).map_err(|e| e.to_string())?;
    let lines = oracle::lines(name, &input).ok_or(format!("there is no format {name}"))?;
    print(lines.as_bytes())
}

/// Prints one case, or all that fit one run: of a format with a header, only the first.
fn print_inputs(name: &str, flags: &Flags) -> Result<ExitCode, String> {
    let format = generate::format(name).ok_or(format!("there is no format {name}"))?;
    let cases = format.cases(flags.seed, flags.cases);
    if flags.case.is_some() || format.stream {
        let index = flags.case.unwrap_or(0);
        let case = cases.get(index).ok_or(format!("{name} has {} cases", cases.len()))?;
        return print(&case.bytes);
    }
    let whole = cases.iter().filter(|c| !c.short);
    let bytes: Vec<u8> = whole.flat_map(|c| &c.bytes).copied().collect();
    print(&bytes)
}

fn print(bytes: &[u8]) -> Result<ExitCode, String> {
    io::stdout().write_all(bytes).map_err(|e| e.to_string())?;
    Ok(ExitCode::SUCCESS)
}
