//! The names of include/barshunet.h: they stand in docs/RECORD.md with the same numbers, and records have the fields there.
//! That table needs nothing, a record as the Rust's fields give it the Rust, one of the port librecord.a (`tools/build record_c`).

use std::collections::BTreeMap;
use std::fs;
use std::path::Path;

/// What stands before a name of an offset, in the header and in docs/RECORD.md.
const AT: &str = "BARSHUNET_AT_";

fn read(path: &str) -> String {
    let path = Path::new(env!("CARGO_MANIFEST_DIR")).join(path);
    fs::read_to_string(&path).unwrap_or_else(|e| panic!("{}: {e}", path.display()))
}

/// The header's numbers by name, without `BARSHUNET_`.
fn header() -> BTreeMap<String, usize> {
    let text = read("include/barshunet.h");
    let mut numbers = BTreeMap::new();
    for line in text.lines() {
        let words: Vec<&str> = line.split_whitespace().collect();
        if let ["#define", name, number, ..] = words[..] {
            let name = name.strip_prefix("BARSHUNET_").expect("the project's prefix");
            numbers.insert(name.to_string(), number.parse().expect("a number"));
        }
    }
    numbers
}

/// First byte and name of each row of docs/RECORD.md that has one.
fn table() -> BTreeMap<String, usize> {
    let text = read("../docs/RECORD.md");
    let rows = text.lines().filter(|line| line.contains(AT));
    rows.map(|line| {
        let cells: Vec<&str> = line.split('|').map(str::trim).collect();
        let first = cells[1].split('-').next().expect("a first byte");
        let name = cells[5].trim_matches('`').replace("BARSHUNET_", "");
        (name, first.parse().expect("a number"))
    })
    .collect()
}

#[test]
fn the_table_has_the_headers_offsets() {
    let mut offsets = header();
    offsets.retain(|name, _| name.starts_with("AT_"));
    assert_eq!(offsets.len(), 20);
    assert_eq!(table(), offsets);
}

/// A record read by the header's names.
#[cfg(any(has_rust, has_record))]
struct Reader<'a> {
    numbers: BTreeMap<String, usize>,
    record: &'a [u8],
}

#[cfg(any(has_rust, has_record))]
impl Reader<'_> {
    fn number(&self, name: &str) -> usize {
        self.numbers[name]
    }

    fn bytes<const N: usize>(&self, name: &str, past: usize) -> [u8; N] {
        let at = self.number(name) + past;
        self.record[at..at + N].try_into().expect("so many bytes")
    }

    fn byte(&self, name: &str) -> usize {
        self.record[self.number(name)].into()
    }
}

#[cfg(has_rust)]
#[test]
fn a_message_as_the_rust_gives_it() {
    use host::oracle::record::{message, read_message};
    // every byte other, but for the flags, lengths and ranks
    let mut bytes = [0; 120];
    bytes.iter_mut().zip(1..).for_each(|(b, n)| *b = n);
    bytes[..8].copy_from_slice(&[2, 7, 4 + 32, 12, 5, 0, 0, 0]);
    bytes[44..47].copy_from_slice(&[2, 0, 1]);
    let m = read_message(&bytes);
    let r = Reader {
        numbers: header(),
        record: &message(&m, 2),
    };
    assert_eq!(r.record.len(), r.number("RECORD"));
    assert_eq!(r.byte("AT_KIND"), r.number("MESSAGE"));
    assert_eq!(r.byte("AT_RANK"), 7);
    assert_eq!(r.byte("AT_FLAGS"), r.number("CRC_RIGHT") + r.number("END_KNOWN"));
    assert_eq!(r.byte("AT_PAYLOAD_LEN"), m.payload.len());
    assert_eq!(r.byte("AT_AUTH_LEN"), m.auth.len());
    assert_eq!(u32::from_le_bytes(r.bytes("AT_DEVICE", 0)), m.device_id.0);
    assert_eq!(u16::from_le_bytes(r.bytes("AT_COUNTER", 0)), m.counter);
    assert_eq!(r.bytes::<12>("AT_PAYLOAD", 0), m.payload[..]);
    assert_eq!(r.bytes::<5>("AT_AUTH", 0), m.auth[..]);
    assert_eq!(r.byte("AT_DEPTH"), bytes[33].into());
    assert_eq!(r.byte("AT_MARK"), r.number("OUTSIDE"));
    assert_eq!(i32::from_le_bytes(r.bytes("AT_CLOCK_PPM", 0)), m.clock_error_ppm);
    assert_eq!(f32::from_le_bytes(r.bytes("AT_RSSI", 0)), m.rssi);
    assert_eq!(f64::from_le_bytes(r.bytes("AT_TIME", 0)), m.time);
    assert_eq!(Some(f64::from_le_bytes(r.bytes("AT_END", 0))), m.first_frame_end);
    assert_eq!(u64::from_le_bytes(r.bytes("AT_START", 0)), m.start as u64);
    for (i, span) in m.frames.iter().enumerate() {
        assert_eq!(usize::from(r.bytes::<1>("AT_SPAN_RANKS", i)[0]), span.rank);
        assert_eq!(f64::from_le_bytes(r.bytes("AT_SPANS", 16 * i)), span.time);
        assert_eq!(f64::from_le_bytes(r.bytes("AT_SPANS", 16 * i + 8)), span.end);
    }
}

/// AAAA, A08D and a frame of class 1, LI 3, with payload 77 and authentication AA55 (docs/DIFFERENCES.md), its 41st body bit
/// flipped.
#[cfg(any(has_rust, has_record))]
fn frame_bits() -> Vec<u8> {
    const FRAME: [u8; 15] = [
        0xaa, 0xaa, 0xa0, 0x8d, 0xc1, 0x23, 0xee, 0xff, 0xc0, 0x00, 0x77, 0xaa, 0x55, 0xaf, 0xbb,
    ];
    let mut bits: Vec<u8> = FRAME
        .iter()
        .flat_map(|b| (0..8).rev().map(move |i| b >> i & 1))
        .collect();
    bits[32 + 40] ^= 1;
    bits
}

/// The record of those bits, field by field.
#[cfg(any(has_rust, has_record))]
fn check_frame(record: &[u8]) {
    let r = Reader {
        numbers: header(),
        record,
    };
    assert_eq!(record.len(), r.number("RECORD"));
    assert_eq!(r.byte("AT_KIND"), r.number("FRAME"));
    assert_eq!(r.byte("AT_RANK"), 0);
    assert_eq!(r.byte("AT_FLAGS"), r.number("CRC_RIGHT"));
    assert_eq!(r.byte("AT_PAYLOAD_LEN"), 1);
    assert_eq!(r.byte("AT_AUTH_LEN"), 2);
    assert_eq!(r.byte("AT_REPAIR"), r.number("FLIPPED"));
    assert_eq!(u16::from_le_bytes(r.bytes("AT_REPAIR_PLACE", 0)), 40);
    assert_eq!(u32::from_le_bytes(r.bytes("AT_DEVICE", 0)), 0x00c0_ffee);
    assert_eq!(u16::from_le_bytes(r.bytes("AT_COUNTER", 0)), 0x123);
    assert_eq!(r.bytes("AT_PAYLOAD", 0), [0x77]);
    assert_eq!(r.bytes("AT_AUTH", 0), [0xaa, 0x55]);
    assert_eq!(r.bytes("AT_SPAN_RANKS", 0), [255; 3]);
}

#[cfg(has_rust)]
#[test]
fn a_frame_as_the_rust_gives_it() {
    let record = host::oracle::bits::decode(&frame_bits());
    check_frame(&record.expect("it is not refused").expect("it is a frame"));
}

#[cfg(has_record)]
#[test]
fn a_frame_as_the_port_writes_it() {
    use host::decode::{Decoded, RECORD, decode_bits};
    let mut record = [0; RECORD];
    assert_eq!(decode_bits(&frame_bits(), &mut record), Decoded::Frame);
    check_frame(&record);
}

#[cfg(not(has_record))]
#[test]
fn a_frame_as_the_port_writes_it() {
    use std::io::Write;
    writeln!(std::io::stderr(), "SKIPPED: there is no librecord.a").expect("it can be written");
}
