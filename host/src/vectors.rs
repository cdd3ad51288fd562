//! The literal frames that the program `check_frames` tries, made by the Rust alone, and the Rust's lines for them.

use std::fs;
use std::process::ExitCode;

use crate::compare::root;
use crate::oracle::record::repair;
use crate::rust::frame::{
    DeviceId, FRAME_TYPES, UplinkFields, crc16, decode_uplink_bits, deconvolve, encode_uplink, uplink_header,
};
use crate::text::{digits, hex_bytes};

const DEVICE: DeviceId = DeviceId(0x00c0_ffee);
const COUNTER: u16 = 0x123;
const PAYLOAD: [u8; 12] = [0x10, 0x21, 0x32, 0x43, 0x54, 0x65, 0x76, 0x87, 0x98, 0xa9, 0xba, 0xcb];
/// In place of an authentication, which no decoder verifies.
const AUTH: [u8; 5] = [0xe1, 0xd2, 0xc3, 0xb4, 0xa5];
/// A keep-alive and a downlink confirmation: 3,300 and 3,200 mV, 21.5 degrees, then -65 dBm.
const KEEP_ALIVE: [u8; 7] = [0x08, 0xe4, 0x0c, 0x80, 0x0c, 0xd7, 0x00];
const CONFIRMATION: [u8; 8] = [0x09, 0xe4, 0x0c, 0x80, 0x0c, 0xd7, 0x00, 0x23];
/// The frame of docs/DIFFERENCES.md: preamble, type, body.
const RIGHT: &str = "aaaa a06b 0123eeffc000aa55142d";
/// Bits before the body.
const BODY: usize = 32;

/// Bits to be decoded, and what they are.
pub struct Vector {
    what: String,
    bits: Vec<bool>,
}

/// The vectors of one function of crates/check_frames/src/vectors.rt.
struct Group {
    name: String,
    what: String,
    vectors: Vec<Vector>,
}

fn vector(what: impl Into<String>, bits: Vec<bool>) -> Vector {
    Vector {
        what: what.into(),
        bits,
    }
}

impl Vector {
    /// The bits in hexadecimal digits, the last one filled up with zeros.
    pub fn hex(&self) -> String {
        let digit = |four: &[bool]| (0..4).fold(0, |v, i| 2 * v + u32::from(four.get(i) == Some(&true)));
        self.bits.chunks(4).map(|four| format!("{:x}", digit(four))).collect()
    }
}

/// The bits of hexadecimal digits.
fn from_hex(text: &str) -> Vec<bool> {
    let digits = text.chars().filter_map(|c| c.to_digit(16));
    digits
        .flat_map(|d| (0..4).rev().map(move |i| d >> i & 1 == 1))
        .collect()
}

fn fields(payload: &[u8], bit: Option<bool>, downlink: bool) -> UplinkFields<'_> {
    UplinkFields {
        device_id: DEVICE,
        counter: COUNTER,
        payload,
        bit,
        downlink,
    }
}

fn encoded(f: &UplinkFields, rank: usize, control: bool) -> Vec<bool> {
    encode_uplink(f, rank, &AUTH[..uplink_header(f).auth_size], control)
}

/// Bits with some of them flipped.
fn flipped(mut bits: Vec<bool>, places: &[usize]) -> Vec<bool> {
    for &at in places {
        bits[at] = !bits[at];
    }
    bits
}

fn with(mut bits: Vec<bool>, at: usize, bit: bool) -> Vec<bool> {
    bits.insert(at, bit);
    bits
}

fn without(mut bits: Vec<bool>, at: usize) -> Vec<bool> {
    bits.remove(at);
    bits
}

/// Every size class and length indicator, bits, control frames, and three that are damaged.
fn of_rank(rank: usize) -> Group {
    let of = |payload, bit, downlink| encoded(&fields(payload, bit, downlink), rank, false);
    let mut vectors: Vec<Vector> = (0..=PAYLOAD.len())
        .map(|n| vector(format!("payload {n}"), of(&PAYLOAD[..n], None, false)))
        .collect();
    vectors.push(vector("the bit 1", of(&[], Some(true), false)));
    vectors.push(vector("the bit 0, downlink", of(&[], Some(false), true)));
    for (what, payload) in [
        ("keep-alive", &KEEP_ALIVE[..]),
        ("downlink confirmation", &CONFIRMATION[..]),
    ] {
        vectors.push(vector(what, encoded(&fields(payload, None, false), rank, true)));
    }
    let three = of(&PAYLOAD[..3], None, false);
    let last = three.len() - 1;
    vectors.push(vector(
        "payload 3, CRC wrong",
        flipped(three.clone(), &[last - 15, last]),
    ));
    vectors.push(vector("payload 3, last bit wrong", flipped(three.clone(), &[last])));
    vectors.push(vector("payload 3, a bit gained", with(three, BODY + 50, true)));
    Group {
        name: format!("rank_{rank}"),
        what: format!(
            "What encode_uplink writes in rank {rank}, with all six frame types; then one of the frames damaged."
        ),
        vectors,
    }
}

/// The inputs of docs/DIFFERENCES.md, by its rows.
fn differences() -> Group {
    let right = from_hex(RIGHT);
    let rows = [
        ("preamble: 8 zeros", from_hex("00 a06b 0123eeffc000aa55142d")),
        ("frame type: a bit wrong", from_hex("aaaa a06a 0123eeffc000aa55142d")),
        ("repair: bit 40 flipped", flipped(right.clone(), &[BODY + 40])),
        ("one bit short: bit 40 lost", without(right.clone(), BODY + 40)),
        ("one bit short: the last lost", without(right, BODY + 79)),
        (
            "one bit short: the last of two that are equal",
            without(from_hex("aaaa a06b 0123eeffc000aa010e5c"), BODY + 79),
        ),
        ("REP 1", from_hex("aaaa a06b 1123eeffc000aa552999")),
        ("LI 1 of class 0", from_hex("aaaa a06b 4123eeffc000aa55e2fd")),
        ("LI 3 of class 1", from_hex("aaaa a08d c123eeffc00077aa55afbb")),
        ("LI 3 of class 2", from_hex("aaaa a35f c123eeffc00077aa550102030108")),
        (
            "control, LI 3",
            from_hex("aaaa af67 c123eeffc00008010203040506070a0be1bd"),
        ),
        ("another authentication", from_hex("aaaa a06b 0123eeffc000ab55271c")),
    ];
    Group {
        name: "differences".to_string(),
        what: "The inputs of docs/DIFFERENCES.md, row by row.".to_string(),
        vectors: rows.into_iter().map(|(what, bits)| vector(what, bits)).collect(),
    }
}

/// Bits that give no frame.
fn nothing() -> Group {
    let longest = encoded(&fields(&PAYLOAD, None, false), 0, false);
    let rows = [
        ("no bits", vec![]),
        ("too few for a frame type", longest[..20].to_vec()),
        ("a body too short for a repair", longest[..200].to_vec()),
        ("no frame type", from_hex("aaaa 0000 0123eeffc000aa55142d")),
    ];
    Group {
        name: "nothing".to_string(),
        what: "Bits that give no frame.".to_string(),
        vectors: rows.into_iter().map(|(what, bits)| vector(what, bits)).collect(),
    }
}

fn groups() -> Vec<Group> {
    let mut groups: Vec<Group> = (0..FRAME_TYPES.len()).map(of_rank).collect();
    groups.extend([differences(), nothing()]);
    groups
}

pub fn vectors() -> Vec<Vector> {
    groups().into_iter().flat_map(|group| group.vectors).collect()
}

/// crates/check_frames/src/vectors.rt, before `rt fmt` breaks its lines
pub fn source() -> String {
    let mut out = "// Literal frames: hexadecimal digits, and how many bits of them are received. The Rust alone made them: `host/sample frames` writes this file with its
// encode_uplink (host/src/vectors.rs), and a test of host/ fails where the two differ. A payload is the first bytes of 10 21 32 .. cb.
use crate::lines::frame_line;
"
    .to_string();
    for group in groups() {
        out += &format!("\n// {}\npub fn {}(rt: &impl Print) {{\n", group.what, group.name);
        for v in &group.vectors {
            out += &format!("    frame_line(rt, b\"{}\", {}); // {}\n", v.hex(), v.bits.len(), v.what);
        }
        out += "}\n";
    }
    out
}

/// What the program prints, by the Rust.
pub fn lines() -> String {
    let mut out = String::new();
    for (name, data) in [("123456789", &b"123456789"[..]), ("-", b""), ("01", b"\x01")] {
        out += &format!("crc16 {name} {:04x}\n", crc16(data));
    }
    for rank in [1, 2] {
        out += &format!(
            "deconvolve {rank} 100 {}\n",
            digits(&deconvolve(&[true, false, false], rank))
        );
    }
    out += &header_line(COUNTER, None, &PAYLOAD[..2]);
    out += &header_line(0xf123, None, &[]);
    out += &header_line(COUNTER, Some(true), &[0xaa]);
    out + &vectors().iter().filter_map(frame_line).collect::<String>()
}

fn header_line(counter: u16, bit: Option<bool>, payload: &[u8]) -> String {
    let header = uplink_header(&UplinkFields {
        counter,
        ..fields(payload, bit, false)
    });
    format!(
        "header {} {} {}\n",
        hex_bytes(&header.bytes),
        header.class,
        header.auth_size
    )
}

fn frame_line(v: &Vector) -> Option<String> {
    let f = decode_uplink_bits(&v.bits)?;
    let part = |bytes: &[u8]| format!("{}:{}", bytes.len(), hex_bytes(bytes));
    let flag = |b: bool| u8::from(b).to_string();
    let (number, place) = repair(f.repaired);
    Some(format!(
        "frame {} {:08x} {:03x} {} {} {} {}{}{} {number} {place}\n",
        f.rank,
        f.device_id.0,
        f.counter,
        part(&f.payload),
        part(&f.auth),
        f.bit.map_or("-".to_string(), flag),
        flag(f.downlink),
        flag(f.control),
        flag(f.crc_ok)
    ))
}

/// Writes the literals and the lines beside the program.
pub fn write() -> Result<ExitCode, String> {
    let folder = root().join("crates/check_frames");
    for (file, text) in [("src/vectors.rt", source()), ("stdout", lines())] {
        let path = folder.join(file);
        fs::write(&path, text).map_err(|e| format!("{}: {e}", path.display()))?;
    }
    println!(
        "check_frames: {} vectors, {} lines",
        vectors().len(),
        lines().lines().count()
    );
    Ok(ExitCode::SUCCESS)
}
