//! The samples that the gate replays: inputs and the Rust's answers, beside the programs.

use std::fs;
use std::process::ExitCode;

use crate::compare::{program_name, root};
use crate::generate::{self, Case, Format};
use crate::oracle;

/// The most bytes of a sample, in and out: so much for the smallest cases, so much for a choice of the others.
const SMALL: usize = 100_000;
const OTHERS: usize = 50_000;
/// Larger cases are left to the comparison.
const MOST_CASE: usize = 16_000;
const SEED: u64 = 1;
const RANDOM: usize = 100;

/// Writes crates/PROGRAM/stdin and stdout.
pub fn write(names: &[&str]) -> Result<ExitCode, String> {
    for name in names {
        let format = generate::format(name).ok_or(format!("there is no format {name}"))?;
        match format.runs {
            None => write_run(name, &program_name(name), &chosen_cases(format))?,
            Some(runs) => {
                for (program, run) in runs() {
                    write_run(name, program, &run.bytes)?;
                }
            }
        }
    }
    Ok(ExitCode::SUCCESS)
}

fn write_run(name: &str, program: &str, input: &[u8]) -> Result<(), String> {
    let answers = oracle::lines(name, input).expect("every generated format has an oracle");
    let folder = root().join("crates").join(program);
    for (file, bytes) in [("stdin", input), ("stdout", answers.as_bytes())] {
        let path = folder.join(file);
        fs::write(&path, bytes).map_err(|e| format!("{}: {e}", path.display()))?;
    }
    println!(
        "{program}: {} bytes in, {} lines out",
        input.len(),
        answers.lines().count()
    );
    Ok(())
}

fn chosen_cases(format: &Format) -> Vec<u8> {
    let cases = format.cases(SEED, RANDOM);
    let (short, whole): (Vec<&Case>, Vec<&Case>) = cases.iter().partition(|c| c.short);
    let size = |case: &Case| {
        let lines = oracle::lines(format.name, &case.bytes).expect("every generated format has an oracle");
        case.bytes.len().max(lines.len())
    };
    let sizes: Vec<usize> = whole.iter().map(|c| size(c)).collect();
    let chosen = choose(&sizes);
    let whole = whole
        .into_iter()
        .zip(chosen)
        .filter(|&(_, chosen)| chosen)
        .map(|(case, _)| case);
    let bytes = whole.chain(short.into_iter().take(1)).flat_map(|c| &c.bytes);
    bytes.copied().collect()
}

/// Which cases, by their sizes, are taken: the smallest, then every so many of the others.
fn choose(sizes: &[usize]) -> Vec<bool> {
    let mut order: Vec<usize> = (0..sizes.len()).filter(|&i| sizes[i] <= MOST_CASE).collect();
    order.sort_by_key(|&i| sizes[i]);
    let mut sum = 0;
    let smallest = order.iter().take_while(|&&i| {
        sum += sizes[i];
        sum <= SMALL
    });
    let count = smallest.count();
    let mut others = order.split_off(count);
    others.sort_unstable();
    let total: usize = others.iter().map(|&i| sizes[i]).sum();
    let every = total / OTHERS + 1;
    let mut chosen = vec![false; sizes.len()];
    for i in order.into_iter().chain(others.into_iter().step_by(every)) {
        chosen[i] = true;
    }
    chosen
}
