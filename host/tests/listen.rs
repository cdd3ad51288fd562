//! How the program `listen` ends, and when its lines come. Needs target/bin/listen (`tools/build listen`); each test says so where it isn't there.

use std::fs::{self, File};
use std::io::{BufRead, BufReader, Read, Write};
use std::os::fd::OwnedFd;
use std::os::unix::net::UnixStream;
use std::path::{Path, PathBuf};
use std::process::{Child, Command, Stdio};
use std::sync::mpsc::{Receiver, channel};
use std::thread;
use std::time::Duration;

const LONG: Duration = Duration::from_secs(20);

fn root() -> PathBuf {
    Path::new(env!("CARGO_MANIFEST_DIR")).join("..")
}

/// The program, or none where it isn't built.
fn program() -> Option<PathBuf> {
    let program = root().join("target/bin/listen");
    if !program.is_file() {
        // not `eprintln!`, which the tests' runner keeps to itself
        let mut stderr = std::io::stderr();
        writeln!(stderr, "SKIPPED: no target/bin/listen; tools/build listen makes it").expect("it can be written");
        return None;
    }
    Some(program)
}

fn run(command: &mut Command) -> Child {
    let command = command.stdin(Stdio::piped()).stdout(Stdio::piped());
    command.stderr(Stdio::piped()).spawn().expect("it can be run")
}

fn listen() -> Option<Child> {
    Some(run(&mut Command::new(program()?)))
}

/// A record of eight equal samples.
fn record(raw: u8, hz: u32) -> Vec<u8> {
    [&[raw; 8][..], &[0, 0], &hz.to_le_bytes(), &[7, 7]].concat()
}

const HZ: u32 = 868_130_000;

/// What `listen` prints for an input that comes in pieces of one size, and then ends.
fn printed(input: &[u8], piece: usize) -> Option<String> {
    let mut child = listen()?;
    let mut stdin = child.stdin.take().expect("it is a pipe");
    for part in input.chunks(piece) {
        // a program that was refused reads no more
        if stdin.write_all(part).is_err() {
            break;
        }
    }
    drop(stdin);
    let output = child.wait_with_output().expect("it ends");
    assert!(output.status.success(), "{}", output.status);
    assert!(output.stderr.is_empty(), "it says something on standard error");
    Some(String::from_utf8(output.stdout).expect("it prints text"))
}

fn prints(input: &[u8], expected: &str) {
    if let Some(lines) = printed(input, 1 << 20) {
        assert_eq!(lines, expected);
    }
}

#[test]
fn no_input() {
    prints(&[], "E 0 0 0 0\n");
}

#[test]
fn one_record() {
    prints(&record(200, HZ), "E 8 0 0 0\n");
}

#[test]
fn ends_inside_a_record() {
    for leftover in 1..16 {
        prints(&vec![200; leftover], &format!("E 0 0 0 {leftover}\n"));
        let input = [record(200, HZ), record(200, HZ), vec![1; leftover]].concat();
        prints(&input, &format!("E 16 0 0 {leftover}\n"));
    }
}

/// The tracker asks for its base frequency again, and the 65th tuning is refused; whatever comes after it, nothing is printed.
#[test]
fn nothing_after_a_refusal() {
    let tunings = (0..70).flat_map(|i| record(200, HZ + i));
    let quiet = (0..10_000).flat_map(|_| record(200, HZ));
    prints(&tunings.chain(quiet).collect::<Vec<u8>>(), "T 868130000\nR 8\n");
}

/// A refused program ends though its input is still open.
#[test]
fn a_refusal_does_not_wait_for_more() {
    let Some(mut child) = listen() else { return };
    let mut stdin = child.stdin.take().expect("it is a pipe");
    let tunings: Vec<u8> = (0..65).flat_map(|i| record(200, HZ + i)).collect();
    stdin.write_all(&tunings).expect("it reads");
    let (lines, _) = lines_of(&mut child);
    for line in ["T 868130000", "R 8"] {
        assert_eq!(lines.recv_timeout(LONG).as_deref(), Ok(line));
    }
    assert!(lines.recv_timeout(LONG).is_err(), "a line after the refusal");
    assert!(child.wait().expect("it ends").success());
    drop(stdin);
}

/// What is said on standard error where a read fails.
const FAILED: &[u8] = b"listen: standard input can't be read\n";

/// There is no standard input at all, or it is a folder: no line, as no stream has ended.
#[test]
fn no_readable_input() {
    let Some(program) = program() else { return };
    for shell in ["exec \"$0\" <&-", "exec \"$0\" < /"] {
        let mut command = Command::new("sh");
        let output = command.args(["-c", shell]).arg(&program).output().expect("it ends");
        assert_eq!((&output.stdout[..], &output.stderr[..]), (&b""[..], FAILED), "{shell}");
        assert!(output.status.success());
    }
}

/// A read fails after some records: their lines stand, and neither messages nor `E` come after them.
#[test]
fn a_read_that_fails_later() {
    let Some(program) = program() else { return };
    let (mut near, mut far) = UnixStream::pair().expect("sockets can be made");
    // a socket that is closed before what came to it was read resets the other end, once that has read all
    far.write_all(b"unread").expect("there is room");
    near.write_all(&[record(200, HZ), record(200, HZ + 1)].concat())
        .expect("there is room");
    drop(near);
    let output = Command::new(program)
        .stdin(OwnedFd::from(far))
        .output()
        .expect("it ends");
    assert_eq!(
        (&output.stdout[..], &output.stderr[..]),
        (&b"T 868130000\n"[..], FAILED)
    );
    assert!(output.status.success());
}

/// The stored stream in pieces that cut records: the stored lines.
#[test]
fn pieces() {
    let crate_of = root().join("crates/listen");
    let input = fs::read(crate_of.join("stdin")).expect("the repository has it");
    let expected = fs::read_to_string(crate_of.join("stdout")).expect("the repository has it");
    for piece in [7, 4095, 4097, 1 << 20] {
        if let Some(lines) = printed(&input, piece) {
            assert_eq!(lines, expected, "pieces of {piece} bytes");
        }
    }
}

/// Whether it ends on an input that goes on for hours.
fn ends_reading(stdin: &mut impl Write, input: &[u8]) -> bool {
    (0..1000).any(|_| stdin.write_all(input).is_err())
}

/// There is no standard output at all.
#[test]
fn no_output() {
    let Some(program) = program() else { return };
    let mut child = run(Command::new("sh").args(["-c", "exec \"$0\" >&-"]).arg(program));
    let input = fs::read(root().join("crates/listen/stdin")).expect("the repository has it");
    let mut stdin = child.stdin.take().expect("it is a pipe");
    assert!(ends_reading(&mut stdin, &input));
    assert!(child.wait().expect("it ends").success());
}

/// The device of standard output is full: it ends at the line that can't be written, and says nothing.
#[test]
fn full_output() {
    let Some(program) = program() else { return };
    let full = File::options().write(true).open("/dev/full").expect("Linux has it");
    let mut command = Command::new(program);
    let command = command.stdin(Stdio::piped()).stdout(full).stderr(Stdio::piped());
    let mut child = command.spawn().expect("it can be run");
    let input = fs::read(root().join("crates/listen/stdin")).expect("the repository has it");
    let mut stdin = child.stdin.take().expect("it is a pipe");
    assert!(ends_reading(&mut stdin, &input));
    let output = child.wait_with_output().expect("it ends");
    assert!(output.status.success() && output.stderr.is_empty());
}

/// Who reads the lines goes away after the first: `listen` ends though its input goes on.
#[test]
fn closed_output() {
    let Some(mut child) = listen() else { return };
    let input = fs::read(root().join("crates/listen/stdin")).expect("the repository has it");
    let mut stdin = child.stdin.take().expect("it is a pipe");
    let mut stdout = child.stdout.take().expect("it is a pipe");
    let reader = thread::spawn(move || {
        let mut first = [0; 2];
        stdout.read_exact(&mut first).expect("a line comes");
        first
    });
    assert!(ends_reading(&mut stdin, &input));
    assert_eq!(&reader.join().expect("it reads"), b"T ");
    child.wait().expect("it ends");
}

/// The lines as they come, in a thread of its own.
fn lines_of(child: &mut Child) -> (Receiver<String>, thread::JoinHandle<()>) {
    let stdout = BufReader::new(child.stdout.take().expect("it is a pipe"));
    let (sender, lines) = channel();
    let read = move || {
        stdout
            .lines()
            .map_while(Result::ok)
            .all(|line| sender.send(line).is_ok())
    };
    let thread = thread::spawn(move || assert!(read()));
    (lines, thread)
}

/// Each line comes with the record that brings it, while nothing more is sent.
#[cfg(has_rust)]
#[test]
fn lines_come_at_once() {
    use host::listener::{Listener, RECORD};

    let Some(mut child) = listen() else { return };
    let mut stdin = child.stdin.take().expect("it is a pipe");
    let (lines, thread) = lines_of(&mut child);
    let input = fs::read(root().join("crates/listen/stdin")).expect("the repository has it");
    let (records, rest) = input.as_chunks::<RECORD>();
    let mut listener = Listener::default();
    let (mut tunes, mut messages) = (0, 0);
    for record in records {
        stdin.write_all(record).expect("it reads");
        for line in listener.hear(record).lines() {
            assert_eq!(lines.recv_timeout(LONG).as_deref(), Ok(line));
            tunes += usize::from(line.starts_with('T'));
            messages += usize::from(line.starts_with('M'));
        }
        assert!(lines.try_recv().is_err(), "a line too early");
    }
    assert!(tunes > 2 && messages > 2, "{tunes} tunings, {messages} messages");
    stdin.write_all(rest).expect("it reads");
    drop(stdin);
    for line in listener.end(rest.len()).lines() {
        assert_eq!(lines.recv_timeout(LONG).as_deref(), Ok(line));
    }
    assert!(child.wait().expect("it ends").success());
    thread.join().expect("it reads to the end");
}
