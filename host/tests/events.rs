//! The arguments of the program `events`: marks, refusals, and what is no argument. Needs target/bin/events (`tools/build events`); each test says so
//! where it isn't there. The stream is the stored one of `listen`, whose five messages come at 6.025, 26.551, 52.635, 61.663 and 67.272 s.

use std::fs::{self, File};
use std::io::Write;
use std::path::{Path, PathBuf};
use std::process::Command;

const RECORD: usize = 120;
const MESSAGE: u8 = 2;
const MARK: usize = 34;
const LEFT_OVER: &str = "events: bytes left over: 9\n";
const REFUSED: &str = "events: refused with 11\n";
const USAGE: &str = "events: the arguments are a start second, windows A-B and closed dates\n";

fn root() -> PathBuf {
    Path::new(env!("CARGO_MANIFEST_DIR")).join("..")
}

/// What the program writes on standard output and on standard error, or none where it isn't built.
fn run(arguments: &str) -> Option<(Vec<u8>, String)> {
    let program = root().join("target/bin/events");
    if !program.is_file() {
        // not `eprintln!`, which the tests' runner keeps to itself
        let mut stderr = std::io::stderr();
        writeln!(stderr, "SKIPPED: no target/bin/events; tools/build events makes it").expect("it can be written");
        return None;
    }
    let stream = File::open(root().join("crates/listen/stdin")).expect("a stored stream");
    let mut command = Command::new(program);
    let output = command.args(arguments.split_whitespace()).stdin(stream).output();
    let output = output.expect("it can be run");
    Some((output.stdout, String::from_utf8(output.stderr).expect("it prints text")))
}

fn refuses(arguments: &str, line: &str) {
    if let Some((records, said)) = run(arguments) {
        assert_eq!((records.len(), said.as_str()), (0, line), "{arguments}");
    }
}

/// The marks of the messages; in all else the records are those without arguments.
fn marks(arguments: &str, expected: &[u8]) {
    let Some((records, said)) = run(arguments) else {
        return;
    };
    assert_eq!(said, LEFT_OVER);
    let plain = fs::read(root().join("crates/events/stdout")).expect("the stored records");
    assert_eq!(records.len(), plain.len());
    let mut marks = vec![];
    for (marked, plain) in records.chunks(RECORD).zip(plain.chunks(RECORD)) {
        assert_eq!(
            (&marked[..MARK], &marked[MARK + 1..]),
            (&plain[..MARK], &plain[MARK + 1..])
        );
        assert_eq!(plain[MARK], 0);
        if marked[0] == MESSAGE {
            marks.push(marked[MARK]);
        } else {
            assert_eq!(marked[MARK], 0);
        }
    }
    assert_eq!(marks, expected, "{arguments}");
}

#[test]
fn no_arguments() {
    marks("", &[0; 5]);
}

#[test]
fn windows() {
    marks("0", &[2; 5]);
    marks("0 7-7", &[1; 5]);
    marks("0 0-1", &[1, 1, 1, 2, 2]);
    marks("0 1-2", &[2, 2, 2, 1, 1]);
    marks("0 9-9 1-2", &[1; 5]);
    marks("604739 10079-0", &[1, 1, 1, 2, 2]);
    marks("604760 10079-1", &[1; 5]);
}

#[test]
fn closed_dates() {
    marks("0 7-7 0", &[2; 5]);
    marks("86370 7-7 0", &[2, 2, 1, 1, 1]);
    marks("86370 0 7-7 1", &[2; 5]);
    marks("86370 1 5 7-7", &[1, 1, 2, 2, 2]);
}

#[test]
fn refusals() {
    refuses("604800", REFUSED);
    refuses("99999999999999999999", REFUSED);
    refuses("0 10080-0", REFUSED);
    refuses("0 0-65536", REFUSED);
    refuses("0 3 3", REFUSED);
    refuses(&format!("0{}", " 1-2".repeat(33)), REFUSED);
    marks(&format!("0{}", " 0-1".repeat(32)), &[1, 1, 1, 2, 2]);
}

#[test]
fn no_shifts() {
    for arguments in ["x", "1-2", "0 1-", "0 -1", "0 1-2-3", "0 1x", "0 +1", "-", "0 0x1"] {
        refuses(arguments, USAGE);
    }
}
