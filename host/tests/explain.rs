//! `explain` says of every burst what the receiver did with it: its frames and messages are the records of `events` on the same stream. Needs target/bin/explain and
//! target/bin/events (`tools/build explain events`); it says so where one isn't there.

use std::fs;
use std::io::Write;
use std::path::{Path, PathBuf};
use std::process::{Command, Stdio};

const RECORD: usize = 120;
const FRAME: u8 = 1;
const RIGHT: u8 = 4;

fn root() -> PathBuf {
    Path::new(env!("CARGO_MANIFEST_DIR")).join("..")
}

/// What a program writes, or none where it isn't built.
fn run(program: &str, arguments: &[&str], input: &[u8]) -> Option<Vec<u8>> {
    let path = root().join("target/bin").join(program);
    if !path.is_file() {
        // not `eprintln!`, which the tests' runner keeps to itself
        let mut stderr = std::io::stderr();
        writeln!(stderr, "SKIPPED: no target/bin/{program}; tools/build {program} makes it").expect("it can be written");
        return None;
    }
    let mut command = Command::new(path);
    let command = command.args(arguments).stdin(Stdio::piped());
    let mut child = command
        .stdout(Stdio::piped())
        .stderr(Stdio::null())
        .spawn()
        .expect("it can be run");
    let mut stdin = child.stdin.take().expect("it is piped");
    let input = input.to_vec();
    let writer = std::thread::spawn(move || stdin.write_all(&input));
    let output = child.wait_with_output().expect("it ends");
    writer.join().expect("it ends").expect("all is read");
    Some(output.stdout)
}

/// A frame by its device, counter, rank and CRC, or a message by its device, counter and ranks, as a line.
fn of_record(record: &[u8]) -> String {
    let device = u32::from_le_bytes(record[8..12].try_into().expect("four bytes"));
    let counter = u16::from_le_bytes(record[12..14].try_into().expect("two bytes"));
    let right = if record[2] & RIGHT == 0 { "wrong" } else { "right" };
    if record[0] == FRAME {
        return format!("frame {device:08x} {counter} {} {right}", record[1]);
    }
    let ranks: String = (0..3)
        .filter(|r| record[1] >> r & 1 == 1)
        .map(|r| format!(" {r}"))
        .collect();
    format!("message {device:08x} {counter}{ranks}")
}

/// The same of a line of `explain`, or none.
fn of_line(line: &str) -> Option<String> {
    let words: Vec<&str> = line.split([' ', ',', ';', ':']).filter(|w| !w.is_empty()).collect();
    let after = |name: &str| words.iter().position(|w| *w == name).map(|i| words[i + 1]);
    let (device, counter) = (after("device")?, after("counter")?);
    if line.starts_with("message") {
        let ranks = line.split("ranks").nth(1)?.split(';').next()?;
        return Some(format!("message {device} {counter}{ranks}"));
    }
    Some(format!("frame {device} {counter} {} {}", after("rank")?, after("CRC")?))
}

/// Both in the order in which they are written; a call writes its frames first.
fn agrees(stream: &[u8]) {
    let Some(records) = run("events", &[], stream) else {
        return;
    };
    let Some(text) = run("explain", &["1000", "records"], stream) else {
        return;
    };
    let text = String::from_utf8(text).expect("it prints text");
    let expected: Vec<String> = records.chunks_exact(RECORD).map(of_record).collect();
    let found: Vec<String> = text.lines().filter_map(of_line).collect();
    assert_eq!(found, expected);
}

/// A stream's raw samples with noise of so many half decibels on them.
fn noisy(stream: &[u8], most: u32, seed: u32) -> Vec<u8> {
    let mut state = seed;
    let mut noise = || {
        state = state.wrapping_mul(1_664_525).wrapping_add(1_013_904_223);
        (state >> 16) % (most + 1)
    };
    let mut changed = stream.to_vec();
    for record in changed.chunks_exact_mut(16) {
        for sample in &mut record[..8] {
            *sample = (u32::from(*sample) + noise()).saturating_sub(noise()).min(255) as u8;
        }
    }
    changed
}

#[test]
fn the_stored_streams() {
    for program in ["listen", "listen_one", "listen_full", "listen_nothing"] {
        agrees(&fs::read(root().join("crates").join(program).join("stdin")).expect("a stored stream"));
    }
}

#[test]
fn with_noise() {
    let stream = fs::read(root().join("crates/listen/stdin")).expect("a stored stream");
    for (seed, most) in [0, 4, 10, 20, 40].into_iter().enumerate() {
        agrees(&noisy(&stream, most, seed as u32));
    }
}

#[cfg(has_rust)]
#[test]
fn the_recording_is_kept() {
    let kept = fs::read(root().join("crates/explain/stdin")).expect("it can be read");
    assert!(
        kept == host::generate::explain::recording(),
        "host/run recording > crates/explain/stdin"
    );
}
