//! The port's C function against the Rust: needs librecord.a (`tools/build record_c`) and the Rust's text.
#![cfg(all(has_rust, has_record))]

use host::decode::{Decoded, RECORD, decode_bits};
use host::generate;
use host::oracle::bits::decode;

/// What stands in a record slice before a call.
fn before(length: usize) -> Vec<u8> {
    (0..length).map(|i| (i * 37 + 11) as u8).collect()
}

/// The answer and every byte of the slice, for one list of bits and one length of the slice.
fn check(label: &str, bits: &[u8], length: usize) {
    let mut record = before(length);
    let answer = decode_bits(bits, &mut record);
    let mut expected = before(length);
    let rust = if length < RECORD { Err(2) } else { decode(bits) };
    let rust_answer = match rust {
        Err(n) => Decoded::Refused(n),
        Ok(None) => Decoded::NoFrame,
        Ok(Some(bytes)) => {
            expected[..RECORD].copy_from_slice(&bytes);
            Decoded::Frame
        }
    };
    assert_eq!(answer, rust_answer, "{label}: {bits:?}");
    assert_eq!(record, expected, "{label}: {bits:?}");
}

#[test]
fn every_case_of_the_format() {
    let format = generate::format("bits").expect("it is one of the formats");
    for case in format.cases(1, 3000).iter().filter(|c| !c.short) {
        check(&case.label, &case.bytes[2..], RECORD);
    }
}

#[test]
fn slices_of_other_lengths() {
    let format = generate::format("bits").expect("it is one of the formats");
    for case in format.cases(2, 300).iter().step_by(40).filter(|c| !c.short) {
        for length in [0, 1, 119, 120, 121, 240, 4096] {
            check(&case.label, &case.bytes[2..], length);
        }
    }
}

#[test]
fn long_lists() {
    for length in [1024, 1025, 5000, 100_000] {
        check("zeros", &vec![0; length], RECORD);
        check("zeros, no room", &vec![2; length], RECORD - 1);
        check("twos", &vec![2; length], RECORD);
    }
}
