//! docs/signal.svg: one frame as the Rust finds it. Samples are made by `generate`; floor, burst, dips, bit grid, bits and
//! fields are the Rust's answers on them.

mod svg;

use crate::generate::frame::{Uplink, word};
use crate::generate::rng::Rng;
use crate::generate::signal::{Air, Shape};
use crate::rust::demod::{
    BIT_RATE, Burst, BurstBits, BurstOptions, burst_bits, find_bursts, find_dips, noise_floor, round,
};
use crate::rust::frame::{FRAME_TYPES, UplinkFrame, decode_uplink_bits};
use svg::{Plot, Svg};

const RATE: u32 = 1000;
const SEED: u64 = 19;
const BACKGROUND_DBM: f64 = -118.0;
const NOISE_DB: f64 = 2.0;
const DEVICE: u32 = 0x00c0_ffee;
const COUNTER: u16 = 291;
/// demod.rs: what stands before and behind a burst in its segment, in seconds; sides of a dip, in bits
const PAD_S: f64 = 0.02;
const SIDE_BITS: f64 = 1.5;

const SAMPLES: &str = "#20507c";
const FLOOR: &str = "#5f6b73";
const THRESHOLD: &str = "#b3261e";
const LEVEL: &str = "#2a7a3f";
const DIP: &str = "#c2570c";
const GRID: &str = "#c3ccd4";
const INK: &str = "#1b1f23";
const FIELDS: [&str; 2] = ["#dfe8f1", "#f3e6d3"];

/// A stretch of samples with one frame, and what the Rust finds in it. Places in the segment count from `from`.
struct Found {
    dbm: Vec<f32>,
    floor: f32,
    threshold: f64,
    burst: Burst,
    from: usize,
    dips: Vec<f64>,
    bits: BurstBits,
    frame: UplinkFrame,
}

/// A frame without a payload, its clock 0.4 % slow, its power rising over the first bits.
fn samples() -> Vec<f32> {
    let uplink = Uplink::new(0, DEVICE, COUNTER, 0, false, &[0xaa, 0x55]);
    let shape = Shape {
        clock: 1.004,
        ramp: (7.0, 14.0),
        fade: 2.0,
        tail: 1.0,
        phase: 0.3,
        ..Shape::clean(-86.0)
    };
    let mut air = Air::quiet(RATE, 1800, BACKGROUND_DBM);
    air.send(300, &shape.envelope(&uplink.bits(0, 20), RATE));
    air.noise(&mut Rng::new(SEED), NOISE_DB);
    air.samples()
}

fn find() -> Found {
    let dbm = samples();
    let (floor, options) = (noise_floor(&dbm), BurstOptions::default());
    let burst = find_bursts(&dbm, RATE, &options, floor)[0];
    let pad = round(f64::from(RATE) * PAD_S) as usize;
    let from = burst.start - pad;
    let segment = &dbm[from..burst.end + pad];
    let bits = burst_bits(segment, RATE).expect("the frame has dips");
    let nominal = f64::from(RATE) / f64::from(BIT_RATE);
    Found {
        floor,
        threshold: f64::from(floor) + options.above_db,
        burst,
        from,
        dips: find_dips(segment, nominal, bits.level_dbm.into()),
        frame: decode_uplink_bits(&bits.bits).expect("the bits have a frame"),
        bits,
        dbm,
    }
}

impl Found {
    /// The sample at which a bit starts.
    fn bit_start(&self, bit: usize) -> f64 {
        let index = self.bits.first - 1 + bit as i64;
        self.from as f64 + self.bits.phase_samples + index as f64 * self.bits.period_samples
    }

    /// How far the lowest sample of a dip lies under the lower of its sides, as find_dips measures it.
    fn depth(&self, dip: f64) -> f64 {
        let side = round(f64::from(RATE) / f64::from(BIT_RATE) * SIDE_BITS) as usize;
        let at = round(dip) as usize;
        let highest = |side: &[f32]| side.iter().fold(-200.0, |m: f32, &v| m.max(v));
        let sides = (
            highest(&self.dbm[at - side..at]),
            highest(&self.dbm[at + 1..=at + side]),
        );
        f64::from(sides.0.min(sides.1) - self.dbm[at])
    }

    /// The fields with their first bits, and where the last one ends.
    fn fields(&self) -> (Vec<(usize, String)>, usize) {
        let f = &self.frame;
        let frame_type = FRAME_TYPES[f.rank][0];
        let sync = word(frame_type, 16);
        let at = self.bits.bits.windows(16).position(|w| w == sync);
        let at = at.expect("the frame has its type");
        let auth: String = f.auth.iter().map(|b| format!("{b:02X}")).collect();
        let fields = vec![
            (0, "preamble".to_string()),
            (at, format!("frame type {frame_type:04X}")),
            (at + 16, "LI".to_string()),
            (at + 18, "BF".to_string()),
            (at + 19, "REP".to_string()),
            (at + 20, format!("counter {}", f.counter)),
            (at + 32, format!("device {}, low byte first", f.device_id)),
            (at + 64, format!("authentication {auth}")),
            (at + 80, format!("CRC, {}", if f.crc_ok { "right" } else { "wrong" })),
        ];
        (fields, at + 96)
    }
}

/// The whole picture.
pub fn signal() -> String {
    let found = find();
    let mut svg = Svg::new(1200.0, 846.0);
    heading(&mut svg, &found);
    overview(&mut svg, &found);
    let (_, end) = found.fields();
    let per_strip = end.div_ceil(3);
    for k in 0..3 {
        let bits = k * per_strip..end.min((k + 1) * per_strip);
        strip(&mut svg, &found, bits, 308.0 + 182.0 * k as f64, per_strip);
    }
    svg.done()
}

fn heading(svg: &mut Svg, found: &Found) {
    let b = &found.bits;
    let first = format!(
        "One uplink frame at 1,000 samples/s: {} dips, {} bits, bit period {:.3} samples (clock {:+} ppm)",
        found.dips.len(),
        b.bits.len(),
        b.period_samples,
        b.clock_error_ppm
    );
    svg.text(64.0, 26.0, 16.0, INK, "start", &first);
    let second = "A dip on a grid line makes the bit right of the line 0; no dip makes it 1. The first bit has no bit before it: 1.";
    svg.text(64.0, 46.0, 13.0, INK, "start", second);
}

/// The lines of one plot that all plots have: level scale, samples, floor and threshold.
fn levels(svg: &mut Svg, found: &Found, plot: &Plot) {
    for dbm in (-120..=-90).step_by(10) {
        let y = plot.y(dbm.into());
        svg.line((plot.left - 5.0, y), (plot.left, y), FLOOR, 1.0, "");
        let label = format!("\u{2212}{}", -dbm);
        svg.text(plot.left - 9.0, y + 4.0, 11.0, INK, "end", &label);
    }
    for (dbm, colour, dash) in [
        (f64::from(found.floor), FLOOR, "6 4"),
        (found.threshold, THRESHOLD, "6 4"),
    ] {
        let y = plot.y(dbm);
        svg.line((plot.left, y), (plot.right, y), colour, 1.2, dash);
    }
    let (first, last) = (plot.sample(plot.left).ceil(), plot.sample(plot.right).floor());
    let shown = first.max(0.0) as usize..found.dbm.len().min(last as usize + 1);
    let points: Vec<(f64, f64)> = shown.map(|i| (plot.x(i as f64), plot.y(found.dbm[i].into()))).collect();
    svg.polyline(&points, SAMPLES);
}

/// All samples, with the burst and its levels.
fn overview(svg: &mut Svg, found: &Found) {
    let last = found.dbm.len() as f64;
    let plot = Plot::new((64.0, 1010.0), (64.0, 244.0), (0.0, last));
    svg.frame(&plot, FLOOR);
    levels(svg, found, &plot);
    let level = f64::from(found.bits.level_dbm);
    svg.line(
        (plot.left, plot.y(level)),
        (plot.right, plot.y(level)),
        LEVEL,
        1.2,
        "6 4",
    );
    let edges = [
        (found.burst.start, "burst starts", "end", -5.0),
        (found.burst.end, "burst ends", "start", 5.0),
    ];
    for (at, what, anchor, aside) in edges {
        let x = plot.x(at as f64);
        svg.line((x, plot.top), (x, plot.bottom), THRESHOLD, 1.0, "");
        svg.text(x + aside, plot.top + 14.0, 12.0, THRESHOLD, anchor, what);
    }
    level_names(svg, found, &plot);
    time_scale(svg, &plot);
}

fn level_names(svg: &mut Svg, found: &Found, plot: &Plot) {
    let level = f64::from(found.bits.level_dbm);
    let above = found.threshold - f64::from(found.floor);
    for (dbm, colour, name) in [
        (level, LEVEL, format!("level {level:.1} dBm")),
        (found.threshold, THRESHOLD, format!("threshold: floor + {above:.0} dB")),
        (found.floor.into(), FLOOR, format!("noise floor {:.1} dBm", found.floor)),
    ] {
        let name = name.replace('-', "\u{2212}");
        svg.text(plot.right + 8.0, plot.y(dbm) + 4.0, 12.0, colour, "start", &name);
    }
    svg.text(8.0, plot.top - 4.0, 11.0, INK, "start", "dBm");
}

fn time_scale(svg: &mut Svg, plot: &Plot) {
    for tenth in (0..=18).step_by(2) {
        let x = plot.x(f64::from(RATE) * f64::from(tenth) / 10.0);
        svg.line((x, plot.bottom), (x, plot.bottom + 5.0), FLOOR, 1.0, "");
        let label = format!("{:.1} s", f64::from(tenth) / 10.0);
        svg.text(x, plot.bottom + 18.0, 11.0, INK, "middle", &label);
    }
}

/// Some bits of the frame: the grid, the dips with their depths, the bits and the fields.
fn strip(svg: &mut Svg, found: &Found, bits: std::ops::Range<usize>, top: f64, width: usize) {
    let from = found.bit_start(bits.start) - 0.5 * found.bits.period_samples;
    let to = from + (width as f64 + 1.0) * found.bits.period_samples;
    let plot = Plot::new((64.0, 1188.0), (top, top + 112.0), (from, to));
    for bit in bits.start..=bits.end {
        let x = plot.x(found.bit_start(bit));
        svg.line((x, plot.top), (x, plot.bottom + 20.0), GRID, 1.0, "");
    }
    svg.frame(&plot, FLOOR);
    levels(svg, found, &plot);
    svg.text(8.0, plot.top - 5.0, 11.0, DIP, "start", "depth, dB");
    for dip in found.dips.iter().map(|d| d + found.from as f64) {
        if dip >= from && dip < found.bit_start(bits.end) + 0.5 * found.bits.period_samples {
            let x = plot.x(dip);
            svg.circle((x, plot.y(found.dbm[round(dip) as usize].into())), DIP);
            let depth = format!("{:.0}", found.depth(dip));
            svg.text(x, plot.top - 5.0, 11.0, DIP, "middle", &depth);
        }
    }
    svg.text(8.0, plot.bottom + 15.0, 11.0, INK, "start", "bits");
    for bit in bits.clone() {
        let middle = plot.x((found.bit_start(bit) + found.bit_start(bit + 1)) / 2.0);
        let (text, colour) = if found.bits.bits[bit] { ("1", INK) } else { ("0", DIP) };
        svg.text(middle, plot.bottom + 16.0, 14.0, colour, "middle", text);
    }
    mark_fields(svg, found, &plot, bits);
}

/// A field's name, or its first word where there is no room for all of it.
fn fitting(name: &str, width: f64) -> &str {
    let whole = name.len() as f64 * 7.0 < width;
    let first = name.split(' ').next().unwrap_or(name);
    if whole { name } else { first }
}

/// The parts of the fields that lie in a strip.
fn mark_fields(svg: &mut Svg, found: &Found, plot: &Plot, bits: std::ops::Range<usize>) {
    let (fields, end) = found.fields();
    let ends = fields.iter().skip(1).map(|f| f.0).chain([end]);
    for (k, ((start, name), stop)) in fields.iter().zip(ends).enumerate() {
        let (start, stop) = ((*start).max(bits.start), stop.min(bits.end));
        if start < stop {
            let (left, right) = (plot.x(found.bit_start(start)), plot.x(found.bit_start(stop)));
            svg.band((left, plot.bottom + 21.0), (right, plot.bottom + 38.0), FIELDS[k % 2]);
            let name = fitting(name, right - left);
            svg.text((left + right) / 2.0, plot.bottom + 34.0, 11.0, INK, "middle", name);
        }
    }
}
