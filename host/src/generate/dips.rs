//! Inputs of `dips`.

use super::frame::Uplink;
use super::put::Put;
use super::rng::Rng;
use super::signal::{self, RATES, Shape};
use super::{Case, case, cut};

const LEVEL: f32 = -60.0;

fn of(label: impl Into<String>, rate: u32, level: f64, seg: &[f32]) -> Case {
    case(label, Put::new().u32(rate).f64(level).f32s(seg))
}

/// A flat segment with some samples at other levels.
fn flat(n: usize, others: &[(usize, f32)]) -> Vec<f32> {
    let mut seg = vec![LEVEL; n];
    for &(at, v) in others {
        seg[at] = v;
    }
    seg
}

pub fn directed() -> Vec<Case> {
    let mut cases = vec![];
    let at_1000 = |label: &str, seg: &[f32]| of(label, 1000, LEVEL.into(), seg);
    for n in 0..5 {
        cases.push(at_1000("short segments", &flat(n, &[])));
    }
    for n in 1..5 {
        for at in 0..n {
            cases.push(at_1000("short segments with a dip", &flat(n, &[(at, -90.0)])));
        }
    }
    for v in [-66.0, -66.00001, -66.5, -65.99999] {
        cases.push(at_1000("around 6 dB", &flat(60, &[(30, v)])));
    }
    for at in [0, 1, 14, 15, 16, 44, 45, 58, 59] {
        cases.push(at_1000("near the ends", &flat(60, &[(at, -80.0)])));
    }
    for apart in 1..7 {
        cases.push(at_1000("equal minima", &flat(60, &[(30, -80.0), (30 + apart, -80.0)])));
        cases.push(at_1000(
            "the later lower",
            &flat(60, &[(30, -80.0), (30 + apart, -81.0)]),
        ));
        cases.push(at_1000(
            "the earlier lower",
            &flat(60, &[(30, -81.0), (30 + apart, -80.0)]),
        ));
    }
    cases.push(at_1000(
        "a plateau",
        &flat(60, &[(30, -80.0), (31, -80.0), (32, -80.0)]),
    ));
    cases.push(at_1000("slopes", &flat(60, &[(29, -70.0), (30, -80.0), (31, -65.0)])));
    windows(&mut cases);
    levels(&mut cases);
    widths(&mut cases);
    refused(&mut cases);
    cases
}

/// The only loud samples stand as far from the dip as the window reaches, and one farther.
fn windows(cases: &mut Vec<Case>) {
    for rate in RATES {
        let r = rate as usize;
        let (win, half) = ((3 * r + 100) / 200, (4 * r + 500) / 1000);
        for (left, right) in [(win, win), (win + 1, win), (win, win + 1)] {
            let mut seg = vec![-80.0; 4 * win];
            let at = 2 * win;
            seg[at] = -82.0;
            seg[at - left] = -60.0;
            seg[at + right.min(2 * win - 1)] = -60.0;
            cases.push(of(format!("windows {left} and {right} at {rate}"), rate, -60.0, &seg));
        }
        for apart in [half, half + 1] {
            let seg = flat(8 * win, &[(4 * win, -80.0), (4 * win + apart, -80.0)]);
            cases.push(of(format!("equal minima {apart} apart at {rate}"), rate, -60.0, &seg));
        }
    }
}

fn levels(cases: &mut Vec<Case>) {
    let seg = flat(60, &[(30, -80.0)]);
    for level in [
        -35.0,
        -34.999,
        -35.001,
        -60.0,
        0.0,
        -0.0,
        1e300,
        f64::INFINITY,
        f64::NEG_INFINITY,
    ] {
        cases.push(of(format!("level {level}"), 1000, level, &seg));
    }
    let uneven = flat(60, &[(30, -95.0)])
        .iter()
        .enumerate()
        .map(|(i, &v)| v - if i > 30 { 20.0 } else { 0.0 })
        .collect::<Vec<f32>>();
    cases.push(of("one side low", 1000, -36.0, &uneven));
}

/// Levels whose difference lies around 6 dB, where sums of different width part.
fn widths(cases: &mut Vec<Case>) {
    let mut rng = Rng::new(9);
    for _ in 0..40 {
        let side = rng.real(-90.0, -30.0) as f32;
        let under = (f64::from(side) - 6.0) as f32;
        for v in [under.next_down(), under, under.next_up()] {
            let mut seg = vec![side; 40];
            seg[20] = v;
            cases.push(of("around 6 dB", 1000, -60.0, &seg));
        }
    }
}

fn refused(cases: &mut Vec<Case>) {
    let seg = flat(60, &[(30, -80.0)]);
    for rate in [0, 199, 4001] {
        cases.push(of(format!("rate {rate}"), rate, f64::NAN, &seg));
    }
    cases.push(of("a level that is no number", 1000, f64::NAN, &seg));
    cases.push(of(
        "a sample that is none",
        1000,
        f64::NAN,
        &flat(60, &[(59, f32::NAN)]),
    ));
    cases.push(of("12 s", 200, -60.0, &flat(2400, &[(30, -80.0)])));
    cases.push(of("12 s and one more", 200, f64::NAN, &flat(2401, &[(30, f32::NAN)])));
    let comb: Vec<(usize, f32)> = (1..1333).map(|i| (36 * i - 1, -80.0)).collect();
    cases.push(of("many dips", 4000, -60.0, &flat(48_000, &comb)));
}

pub fn random(rng: &mut Rng) -> Case {
    let rate = signal::rate(rng);
    let (label, seg) = match rng.below(3) {
        0 => ("a frame", frame(rng, rate)),
        1 => {
            let n = rng.range(0, 600);
            let levels: Vec<f32> = (0..rng.range(2, 6)).map(|_| rng.real(-90.0, -50.0) as f32).collect();
            ("few levels", (0..n).map(|_| rng.pick(&levels)).collect())
        }
        _ => {
            let n = rng.range(0, 900);
            let mut level = -60.0;
            ("a walk", (0..n).map(|_| walk(rng, &mut level)).collect())
        }
    };
    let level = rng.real(-70.0, -20.0);
    let whole = of(label, rate, level, &seg);
    if rng.chance(0.01) { cut(rng, 0, whole) } else { whole }
}

fn walk(rng: &mut Rng, level: &mut f64) -> f32 {
    let step = rng.real(-6.0, 6.0);
    *level = (*level + step).clamp(-110.0, -40.0);
    if rng.chance(0.5) {
        level.floor() as f32
    } else {
        *level as f32
    }
}

/// A frame's envelope, quiet at both ends, with noise.
pub fn frame(rng: &mut Rng, rate: u32) -> Vec<f32> {
    let uplink = Uplink::random(rng);
    let rank = rng.below(3);
    let preamble = rng.range(14, 20);
    let bits = uplink.bits(rank, preamble);
    let shape = Shape::random(rng, -60.0, rate);
    let envelope = shape.envelope(&bits, rate);
    let pad = rng.below(rate as usize / 20 + 1);
    let mut air = signal::Air::quiet(rate, envelope.len() + 2 * pad, -100.0);
    air.send(pad, &envelope);
    let db = rng.pick(&[0.0, 0.5, 2.0, 5.0]);
    air.noise(rng, db);
    if rng.chance(0.5) {
        air.samples()
    } else {
        signal::from_raw(&air.raw())
    }
}
