//! The C example of README.md: compiled with the header and the static library, and run. Needs librecord.a (`tools/build record_c`) and `cc`.
#![cfg(has_record)]

use std::io::Write;
use std::path::Path;
use std::process::Command;

/// AAAA, A06B, and a frame without a payload (docs/DIFFERENCES.md).
const FRAME: &[u8] = &[
    0xaa, 0xaa, 0xa0, 0x6b, 0x01, 0x23, 0xee, 0xff, 0xc0, 0x00, 0xaa, 0x55, 0x14, 0x2d,
];

fn run(program: &Path, bits: &str) -> String {
    let output = Command::new(program).arg(bits).output().expect("it can be run");
    String::from_utf8(output.stdout).expect("it prints text")
}

#[test]
fn decodes() {
    let host = Path::new(env!("CARGO_MANIFEST_DIR"));
    let target = host.join("../target");
    let program = target.join("example");
    let mut compiler = Command::new("cc");
    compiler
        .args(["-std=c99", "-Wall", "-Wextra", "-Werror", "-I"])
        .arg(host.join("include"));
    compiler
        .arg(host.join("example.c"))
        .arg(target.join("staticlib/librecord.a"));
    let Ok(status) = compiler.arg("-o").arg(&program).status() else {
        writeln!(std::io::stderr(), "SKIPPED: there is no cc").expect("it can be written");
        return;
    };
    assert!(status.success(), "{status}");
    let bits: String = FRAME.iter().map(|byte| format!("{byte:08b}")).collect();
    let right = "device 00c0ffee counter 291 rank 0 crc right payload -\n";
    assert_eq!(run(&program, &bits), right);
    assert_eq!(run(&program, &bits[..40]), "no frame\n");
    assert_eq!(run(&program, "2"), "refused: 9\n");
    assert_eq!(run(&program, &"0".repeat(1025)), "refused: 3\n");
}
