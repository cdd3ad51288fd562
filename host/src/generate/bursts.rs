//! Inputs of `bursts`.

use super::put::Put;
use super::rng::Rng;
use super::signal::{self, RATES};
use super::{Case, case, cut};

const QUIET: f32 = -110.0;
const LOUD: f32 = -60.0;

/// The call without its samples; no floor means a measured one.
#[derive(Clone)]
struct Ask {
    rate: u32,
    above: f64,
    min_ms: f64,
    gap_ms: f64,
    floor: Option<f32>,
}

const USUAL: Ask = Ask {
    rate: 1000,
    above: 15.0,
    min_ms: 300.0,
    gap_ms: 40.0,
    floor: Some(-100.0),
};

impl Ask {
    fn of(&self, label: impl Into<String>, dbm: &[f32]) -> Case {
        let put = Put::new()
            .u32(self.rate)
            .f64(self.above)
            .f64(self.min_ms)
            .f64(self.gap_ms);
        let put = put.u8(self.floor.is_none().into()).f32(self.floor.unwrap_or(f32::NAN));
        case(label, put.f32s(dbm))
    }
}

/// Blocks of (samples, level).
fn list(blocks: &[(usize, f32)]) -> Vec<f32> {
    let each = blocks.iter().flat_map(|&(n, level)| std::iter::repeat_n(level, n));
    each.collect()
}

pub fn directed() -> Vec<Case> {
    let mut cases = vec![];
    for n in [300, 301, 302] {
        cases.push(USUAL.of(format!("P5: {n} loud"), &list(&[(9, QUIET), (n, LOUD), (99, QUIET)])));
    }
    for n in [40, 41] {
        let dbm = list(&[
            (9, QUIET),
            (200, LOUD),
            (n, QUIET),
            (200, LOUD),
            (n, QUIET),
            (301, -70.0),
        ]);
        cases.push(USUAL.of(format!("P5: {n} quiet"), &dbm));
    }
    for level in [-84.5, -85.0, -84.99999, -85.00001] {
        cases.push(USUAL.of(format!("P6: {level}"), &list(&[(9, QUIET), (400, level), (9, QUIET)])));
    }
    let two = list(&[(100, QUIET), (500, LOUD), (400, QUIET), (500, -70.0)]);
    cases.push(USUAL.of("two bursts, the second to the end", &two));
    cases.push(USUAL.of("loud from the first", &two[100..]));
    let measured = Ask { floor: None, ..USUAL };
    cases.push(measured.of("two bursts, measured floor", &two));
    cases.push(measured.of("no samples", &[]));
    cases.push(USUAL.of("no samples, given floor", &[]));
    let any = Ask {
        min_ms: 0.0,
        gap_ms: 0.0,
        ..USUAL
    };
    cases.push(any.of(
        "single samples",
        &list(&[(1, LOUD), (1, QUIET), (1, LOUD), (2, QUIET), (1, -61.0)]),
    ));
    let zeros = list(&[(400, -0.0), (1, 0.0), (3, -0.0)]);
    cases.push(USUAL.of("a peak of zero", &zeros));
    cases.push(measured.of("a floor of zero", &zeros));
    for rate in RATES {
        limits_of_rate(&mut cases, rate);
    }
    thresholds(&mut cases);
    refused(&mut cases);
    cases
}

/// Bursts one sample shorter and longer than the minimum, gaps one sample shorter and longer than the gap.
fn limits_of_rate(cases: &mut Vec<Case>, rate: u32) {
    let ask = Ask { rate, ..USUAL };
    let r = rate as usize;
    let least = (3 * r).div_ceil(10);
    for n in [least, least + 1] {
        cases.push(ask.of(
            format!("{n} loud at {rate}"),
            &list(&[(9, QUIET), (n, LOUD), (9, QUIET)]),
        ));
    }
    let gap = (4 * r + 50) / 100;
    for n in [gap, gap + 1] {
        let dbm = list(&[(9, QUIET), (least, LOUD), (n, QUIET), (least, LOUD)]);
        cases.push(ask.of(format!("{n} quiet at {rate}"), &dbm));
    }
}

/// Levels around floor + above, where sums of different width part.
fn thresholds(cases: &mut Vec<Case>) {
    let mut rng = Rng::new(6);
    for _ in 0..40 {
        let floor = rng.real(-120.0, -80.0) as f32;
        let above = rng.real(0.0, 30.0);
        let sum = (f64::from(floor) + above) as f32;
        let levels = [sum.next_down(), sum, sum.next_up(), floor + above as f32];
        let ask = Ask {
            above,
            min_ms: 0.0,
            gap_ms: 0.0,
            floor: Some(floor),
            ..USUAL
        };
        let dbm: Vec<f32> = levels.iter().flat_map(|&v| [v, -150.0]).collect();
        cases.push(ask.of("around the threshold", &dbm));
    }
}

fn refused(cases: &mut Vec<Case>) {
    let loud = list(&[(9, QUIET), (400, LOUD)]);
    // no samples, so that no burst is sought: the call refuses all the same
    let wrong = [
        Ask { rate: 0, ..USUAL },
        Ask { above: -1.0, ..USUAL },
        Ask {
            floor: Some(f32::NAN),
            ..USUAL
        },
    ];
    cases.extend(wrong.iter().map(|ask| ask.of("no samples, refused", &[])));
    let numbers = [
        -0.0,
        -1e-9,
        100.0,
        100.000_000_1,
        10_000.0,
        10_000.1,
        f64::NAN,
        f64::INFINITY,
    ];
    for x in numbers {
        cases.push(Ask { above: x, ..USUAL }.of(format!("above {x}"), &loud));
        cases.push(Ask { min_ms: x, ..USUAL }.of(format!("min {x}"), &loud));
        cases.push(Ask { gap_ms: x, ..USUAL }.of(format!("gap {x}"), &loud));
    }
    for x in [-200.0, -200.5, 100.0, 100.5, f32::NAN, f32::NEG_INFINITY] {
        cases.push(
            Ask {
                floor: Some(x),
                ..USUAL
            }
            .of(format!("floor {x}"), &loud),
        );
    }
    for rate in [0, 199, 4001, u32::MAX] {
        cases.push(
            Ask {
                rate,
                above: -1.0,
                ..USUAL
            }
            .of(format!("rate {rate} and above -1"), &loud),
        );
    }
    for v in [-200.0, 100.0, -200.5, 100.5, f32::NAN, f32::INFINITY] {
        let mut dbm = loud.clone();
        dbm[20] = v;
        cases.push(Ask { above: -1.0, ..USUAL }.of(format!("a sample {v} and above -1"), &dbm));
        cases.push(USUAL.of(format!("a sample {v}"), &dbm));
    }
    let low = Ask { rate: 200, ..USUAL };
    cases.push(low.of("12 s", &[-100.0; 2400]));
    cases.push(Ask { above: -1.0, ..low }.of("12 s, one more, and above -1", &[-100.0; 2401]));
}

pub fn random(rng: &mut Rng) -> Case {
    let rate = signal::rate(rng);
    let low = rng.real(-130.0, -90.0) as f32;
    let mut ask = Ask {
        rate,
        floor: rng.chance(0.5).then_some(low),
        ..USUAL
    };
    if rng.chance(0.5) {
        ask.above = rng.pick(&[0.0, 6.0, 10.5, 15.05, 30.0, 100.0]);
        ask.min_ms = rng.pick(&[0.0, 1.0, 50.0, 299.5, 333.3, 1000.0]);
        ask.gap_ms = rng.pick(&[0.0, 1.0, 12.5, 40.0, 99.9, 500.0]);
    }
    let seconds = rng.pick(&[1, 1, 2, 2, 3, 4, 12]);
    let samples = rng.range(0, seconds * rate as usize);
    let (label, mut dbm) = if rng.chance(0.5) {
        let high = low + ask.above as f32 + rng.pick(&[0.0, 0.5, 10.0, 30.0]);
        ("blocks", signal::blocks(rng, rate, samples, low, high.min(100.0)))
    } else {
        ("a scene", signal::scene(rng, rate, samples).samples())
    };
    if !dbm.is_empty() && rng.chance(0.02) {
        let at = rng.below(dbm.len());
        dbm[at] = rng.pick(&[f32::NAN, 101.0, -201.0]);
    }
    let whole = ask.of(label, &dbm);
    if rng.chance(0.01) { cut(rng, 0, whole) } else { whole }
}
