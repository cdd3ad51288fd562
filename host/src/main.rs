//! The commands of host/: see README.md.

use std::process::ExitCode;

#[cfg(has_rust)]
fn main() -> ExitCode {
    let words: Vec<String> = std::env::args().skip(1).collect();
    host::commands::run(&words)
}

#[cfg(not(has_rust))]
fn main() -> ExitCode {
    eprintln!(
        "The Rust is not at hand: there is no folder {}. BARSHUNET_RUST=FOLDER names another docs/src.",
        env!("RUST_LOOKED_FOR")
    );
    ExitCode::from(2)
}
