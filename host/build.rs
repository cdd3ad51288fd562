//! Makes the Rust that the port is compared with, from the published text, and links what `tools/build` has made.
//! Each text to be replaced must stand in its module exactly once, else the build fails and names it.

use std::path::{Path, PathBuf};
use std::{env, fs};

const MODULES: [&str; 4] = ["frame", "demod", "frequency", "receiver"];

/// Module, published text, text in its place. Nothing here changes what the Rust answers, but for 01's trigonometry,
/// 01's rule on bit indexes and request 07's option in decode_capture; the start sample is carried along because 01's
/// records hold it, the state of `deconvolve` because request 06 starts from any, the bit grid because it is drawn, a frame's
/// samples and the points of the clock because depths (src/depth.rs) are found from the former and must be those of the latter.
const REPLACEMENTS: &[(&str, &str, &str)] = &[
    // 01's trigonometry
    ("demod", "a.sin()", "crate::trig::sin(a)"),
    ("demod", "a.cos()", "crate::trig::cos(a)"),
    ("demod", "f64::atan2(s, c)", "crate::trig::atan2(s, c)"),
    // 01's listed difference: a bit index that is not a number or beyond 2^31 gives no bits
    (
        "demod",
        "round((d - phase) / period) as i64",
        "super::bit_index(round((d - phase) / period))?",
    ),
    (
        "demod",
        "((last_high as f64 - phase) / period).floor() as i64",
        "super::bit_index(((last_high as f64 - phase) / period).floor())?",
    ),
    // deconvolve from any state, with the state at the end
    (
        "frame",
        "pub fn deconvolve(bits: &[bool], rank: usize) -> Vec<bool> {\n    let mut state = 0;\n    bits.iter()",
        "pub fn deconvolve(bits: &[bool], rank: usize) -> Vec<bool> {\n    deconvolve_from(bits, rank, 0).0\n}\n\n\
         pub fn deconvolve_from(bits: &[bool], rank: usize, mut state: usize) -> (Vec<bool>, usize) {\n    \
         let decoded = bits.iter()",
    ),
    (
        "frame",
        "            input\n        })\n        .collect()\n",
        "            input\n        })\n        .collect();\n    (decoded, state)\n",
    ),
    // 02, request 07: decode_capture with the default's shortest burst; the receiver keeps the Rust's own
    (
        "demod",
        "find_bursts(dbm, rate, &BurstOptions::default(), floor)",
        "find_bursts(dbm, rate, &super::default_options(), floor)",
    ),
    // the modules stand one level lower
    ("demod", "use crate::frame::", "use super::frame::"),
    ("receiver", "use crate::demod::", "use super::demod::"),
    ("receiver", "use crate::frame::", "use super::frame::"),
    ("receiver", "use crate::frequency::", "use super::frequency::"),
    // what must be compared is reachable
    ("demod", "\nfn round(", "\npub fn round("),
    ("demod", "\nfn find_dips(", "\npub fn find_dips("),
    ("frequency", "\nfn median(", "\npub fn median("),
    (
        "receiver",
        "\nstruct Pending {\n    message",
        "\npub struct Pending {\n    pub message",
    ),
    ("receiver", "    last: f64,\n}", "    pub last: f64,\n}"),
    ("receiver", "    buf: Vec<f32>,", "    pub buf: Vec<f32>,"),
    ("receiver", "    len: usize,", "    pub len: usize,"),
    ("receiver", "    base: usize,", "    pub base: usize,"),
    ("receiver", "    since_scan: usize,", "    pub since_scan: usize,"),
    ("receiver", "    seen: Vec<usize>,", "    pub seen: Vec<usize>,"),
    (
        "receiver",
        "    pending: Vec<Pending>,",
        "    pub pending: Vec<Pending>,",
    ),
    (
        "frequency",
        "\nstruct Reading {\n    at:",
        "\npub struct Reading {\n    pub at:",
    ),
    (
        "frequency",
        "    lo: u32,\n    /// lo + CFO\n    hz:",
        "    pub lo: u32,\n    pub hz:",
    ),
    ("frequency", "    n: i64,", "    pub n: i64,"),
    ("frequency", "    line_start: i64,", "    pub line_start: i64,"),
    (
        "frequency",
        "    tuning: Vec<(i64, u32)>,",
        "    pub tuning: Vec<(i64, u32)>,",
    ),
    (
        "frequency",
        "    readings: Vec<Reading>,",
        "    pub readings: Vec<Reading>,",
    ),
    ("frequency", "    floor: Option<f64>,", "    pub floor: Option<f64>,"),
    ("frequency", "    frame_from: i64,", "    pub frame_from: i64,"),
    (
        "frequency",
        "    last_signal: Option<i64>,",
        "    pub last_signal: Option<i64>,",
    ),
    ("frequency", "    retuned: bool,", "    pub retuned: bool,"),
    (
        "frequency",
        "    requested: Option<u32>,",
        "    pub requested: Option<u32>,",
    ),
    // the bit grid: where bit 0 would start, and the first dip's bit
    (
        "demod",
        "    pub period_samples: f64,\n",
        "    pub period_samples: f64,\n    pub phase_samples: f64,\n    pub first: i64,\n",
    ),
    (
        "demod",
        "        period_samples: period,\n",
        "        period_samples: period,\n        phase_samples: phase,\n        first,\n",
    ),
    // the start sample of a frame, and of a message's first frame
    (
        "demod",
        "    /// Start and end of the burst, in seconds\n",
        "    pub start: usize,\n    /// Start and end of the burst, in seconds\n",
    ),
    (
        "demod",
        "        time: t0 + b.start",
        "        start: b.start,\n        time: t0 + b.start",
    ),
    (
        "receiver",
        "            let Some(frame) = decode_burst(",
        "            let Some(frame) = decode_burst_at(start, ",
    ),
    (
        "receiver",
        "\nimpl SigfoxReceiver {",
        "\nfn decode_burst_at(start: usize, dbm: &[f32], rate: u32, b: &super::demod::Burst, t0: f64) -> Option<DecodedFrame> {\n    \
         decode_burst(dbm, rate, b, t0).map(|frame| DecodedFrame { start, ..frame })\n}\n\nimpl SigfoxReceiver {",
    ),
    (
        "receiver",
        "    /// Stream time of the first frame received, in seconds\n",
        "    pub start: usize,\n    /// Stream time of the first frame received, in seconds\n",
    ),
    (
        "receiver",
        "                time: d.time,\n                first",
        "                start: d.start,\n                time: d.time,\n                first",
    ),
    // the points of the clock, a frame's samples, and those of the frame that opened a message
    (
        "demod",
        "    pub dips: usize,\n",
        "    pub dips: usize,\n    pub points: Vec<(i64, f64)>,\n",
    ),
    (
        "demod",
        "        dips: points.len(),\n",
        "        dips: points.len(),\n        points,\n",
    ),
    (
        "demod",
        "    pub rssi: f32,\n",
        "    pub rssi: f32,\n    pub segment: crate::depth::Segment,\n",
    ),
    (
        "demod",
        "    let bits = burst_bits(seg, rate)?;\n",
        "    let bits = burst_bits(seg, rate)?;\n    let segment = crate::depth::Segment::new(seg, rate);\n",
    ),
    (
        "demod",
        "        rssi: b.peak_dbm,\n",
        "        rssi: b.peak_dbm,\n        segment,\n",
    ),
    (
        "receiver",
        "    /// Best RSSI of the received frames (dBm)\n",
        "    pub depth: crate::depth::First,\n    /// Best RSSI of the received frames (dBm)\n",
    ),
    (
        "receiver",
        "                rssi: d.rssi,\n",
        "                depth: crate::depth::First::Frame(d.segment.clone()),\n                rssi: d.rssi,\n",
    ),
];

fn main() {
    let host = PathBuf::from(env::var("CARGO_MANIFEST_DIR").expect("cargo sets it"));
    let out = PathBuf::from(env::var("OUT_DIR").expect("cargo sets it"));
    let root = host.parent().expect("host/ stands in the repository");
    println!("cargo::rerun-if-changed=build.rs");
    println!("cargo::rerun-if-env-changed=BARSHUNET_RUST");
    println!("cargo::rustc-check-cfg=cfg(has_rust, has_record, has_bench, has_bench_fleet, has_bench_grip, has_bench_charges)");
    let source = env::var("BARSHUNET_RUST").map_or_else(|_| root.join("../shared/docs/src"), PathBuf::from);
    let modules = source.join("host/crates/sigfox/src");
    println!("cargo::rustc-env=RUST_LOOKED_FOR={}", modules.display());
    if modules.is_dir() {
        println!("cargo::rerun-if-changed={}", modules.display());
        let text: String = MODULES.iter().map(|m| module(&modules, m)).collect();
        fs::write(out.join("rust.rs"), text).expect("OUT_DIR can be written");
        println!("cargo::rustc-cfg=has_rust");
    } else {
        // a file that is never there: the next build looks again
        println!("cargo::rerun-if-changed=the-rust-is-not-at-hand");
    }
    let libraries = root.join("target/staticlib");
    fs::create_dir_all(&libraries).expect("target/ can be written");
    println!("cargo::rerun-if-changed={}", libraries.display());
    for name in ["record", "bench", "bench_fleet", "bench_grip", "bench_charges"] {
        link(&libraries, name);
    }
}

fn module(folder: &Path, name: &str) -> String {
    let path = folder.join(format!("{name}.rs"));
    let mut text = fs::read_to_string(&path).unwrap_or_else(|e| panic!("{}: {e}", path.display()));
    for (_, old, new) in REPLACEMENTS.iter().filter(|(module, ..)| *module == name) {
        let found = text.matches(old).count();
        assert!(
            found == 1,
            "{name}.rs has this text {found} times and not once: {old:?}"
        );
        text = text.replacen(old, new, 1);
    }
    format!("pub mod {name} {{\n{text}\n}}\n")
}

/// Links the static library NAME where it stands.
fn link(folder: &Path, name: &str) {
    let archive = folder.join(format!("lib{name}.a"));
    if archive.is_file() {
        println!("cargo::rustc-link-search=native={}", folder.display());
        println!("cargo::rustc-link-lib=static={name}");
        println!("cargo::rustc-cfg=has_{name}");
    }
}
