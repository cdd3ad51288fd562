//! The literal frames of the program check_frames, and its stored lines, are what the Rust writes and answers. Needs the Rust's text.
#![cfg(has_rust)]

use std::fs;
use std::path::Path;

use host::rust::frame::{CONTROL_FRAME_TYPES, FRAME_TYPES};
use host::vectors::{Vector, lines, source, vectors};

fn stored(file: &str) -> String {
    let path = Path::new(env!("CARGO_MANIFEST_DIR")).join("..").join(file);
    fs::read_to_string(&path).unwrap_or_else(|e| panic!("{}: {e}", path.display()))
}

/// A text without the blanks and line breaks, and the commas at a line's end, that `rt fmt` puts in.
fn unbroken(text: &str) -> String {
    let solid: String = text.split_whitespace().collect();
    solid.replace(",)", ")")
}

#[test]
fn literals() {
    assert_eq!(unbroken(&stored("crates/check_frames/src/vectors.rt")), unbroken(&source()));
}

#[test]
fn answers() {
    assert_eq!(stored("crates/check_frames/stdout"), lines());
}

/// The check value of this CRC in the catalogues, the one number here that comes from outside.
#[test]
fn crc_check_value() {
    assert!(stored("crates/check_frames/stdout").starts_with("crc16 123456789 ce3c\n"));
}

#[test]
fn all_frame_types() {
    let starts: Vec<String> = vectors().iter().map(|v| v.hex().chars().take(8).collect()).collect();
    for frame_type in FRAME_TYPES.concat().iter().chain(&CONTROL_FRAME_TYPES) {
        let start = format!("aaaa{frame_type:04x}");
        assert!(starts.contains(&start), "{start}");
    }
}

/// Every body that docs/DIFFERENCES.md writes out is among the vectors, whole or without its last bits.
#[test]
fn inputs_of_the_differences() {
    let hex: Vec<String> = vectors().iter().map(Vector::hex).collect();
    let text = stored("docs/DIFFERENCES.md");
    let bodies: Vec<&str> = text
        .split(|c: char| !c.is_ascii_hexdigit())
        .filter(|word| word.len() >= 20)
        .collect();
    assert!(bodies.len() >= 7, "{bodies:?}");
    for body in bodies {
        let front = &body.to_lowercase()[..body.len() - 1];
        assert!(hex.iter().any(|h| h.contains(front)), "{body}");
    }
}
