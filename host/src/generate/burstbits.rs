//! Inputs of `burstbits`.

use super::frame::Uplink;
use super::put::Put;
use super::rng::Rng;
use super::signal::{self, RATES, Shape};
use super::{Case, case, cut, dips};

fn of(label: impl Into<String>, rate: u32, seg: &[f32]) -> Case {
    case(label, Put::new().u32(rate).f32s(seg))
}

/// A flat segment with dips of one sample.
fn comb(n: usize, places: &[usize]) -> Vec<f32> {
    let mut seg = vec![-60.0; n];
    for &at in places {
        seg[at] = -90.0;
    }
    seg
}

fn every(step: usize, count: usize) -> Vec<usize> {
    (1..=count).map(|i| i * step).collect()
}

pub fn directed() -> Vec<Case> {
    let mut cases = vec![];
    cases.push(of("no samples", 1000, &[]));
    cases.push(of("one sample", 1000, &[-60.0]));
    cases.push(of("no dips", 1000, &[-60.0; 400]));
    for count in 6..=13 {
        cases.push(of(format!("{count} dips"), 1000, &comb(400, &every(10, count))));
        cases.push(of(
            format!("{count} dips, none on the grid's end"),
            1000,
            &comb(400, &every(20, count)),
        ));
    }
    points(&mut cases);
    anchors(&mut cases);
    ends(&mut cases);
    boundaries(&mut cases);
    half_ppm(&mut cases);
    counts(&mut cases);
    for rate in RATES {
        frames(&mut cases, rate);
    }
    refused(&mut cases);
    cases
}

/// Dips off the grid, by whole and half samples around 0.35 of a bit.
fn points(cases: &mut Vec<Case>) {
    for off in 1..=9 {
        for count in [8, 9, 14] {
            let mut places = every(10, count);
            places[5] += off;
            cases.push(of(format!("{count} dips, one {off} late"), 1000, &comb(300, &places)));
            let mut seg = comb(300, &places);
            seg[places[5] + 1] = -90.0;
            cases.push(of(format!("{count} dips, one {off} and a half late"), 1000, &seg));
            let mut last = every(20, count);
            last[count - 1] += off;
            cases.push(of(
                format!("{count} dips, the last {off} late"),
                1000,
                &comb(400, &last),
            ));
        }
    }
    let mut rng = Rng::new(12);
    for _ in 0..60 {
        let count = rng.range(8, 20);
        let places: Vec<usize> = (1..=count).map(|i| 20 * i + rng.below(9)).collect();
        cases.push(of("shaken dips", 2000, &comb(500, &places)));
    }
}

/// Of the first dips every other one half a bit off: their mean has hardly a length, and what sine and cosine leave of it decides the grid.
fn anchors(cases: &mut Vec<Case>) {
    for (rate, bit) in [(200, 2), (1000, 10), (4000, 40)] {
        for count in [8, 12, 13, 20] {
            for apart in [2, 3, 5] {
                let places: Vec<usize> = (1..=count).map(|i| i * apart * bit + i % 2 * bit / 2).collect();
                let seg = comb((count + 2) * apart * bit, &places);
                cases.push(of(
                    format!("{count} dips, every other one between bits, {rate}"),
                    rate,
                    &seg,
                ));
            }
        }
    }
}

/// Where the signal ends: 15 dB under the level, a little less and a little more, after the last dip.
fn ends(cases: &mut Vec<Case>) {
    for level in [-75.0, -74.99999, -75.00001, -100.0] {
        for length in [205, 210, 211, 260] {
            let mut seg = comb(300, &every(10, 20));
            seg[length..].fill(level);
            cases.push(of(format!("{level} from {length} on"), 1000, &seg));
        }
    }
    let mut low = comb(300, &every(10, 20));
    low.iter_mut().for_each(|v| *v += 60.0);
    cases.push(of("a level of zero", 1000, &low));
    low.iter_mut().for_each(|v| *v = -v.abs());
    cases.push(of("a level of minus zero", 1000, &low));
}

/// A signal that ends on a bit's boundary of a period that binary numbers don't hold: `samples` for so many `bits`.
fn boundaries(cases: &mut Vec<Case>) {
    for (rate, bits, samples) in [
        (333, 3, 10),
        (233, 3, 7),
        (367, 3, 11),
        (275, 4, 11),
        (229, 7, 16),
        (350, 2, 7),
    ] {
        for count in [8, 11, 16] {
            for first in [3, 10] {
                let places: Vec<usize> = (0..count).map(|i| first + i * samples).collect();
                for end in (1..=8).map(|m| places[count - 1] + m * samples + 1) {
                    let seg = comb(end, &places);
                    cases.push(of(format!("{samples} samples for {bits} bits, end {end}"), rate, &seg));
                }
            }
        }
    }
}

/// Clocks whose error is a whole number of ppm and a half.
fn half_ppm(cases: &mut Vec<Case>) {
    for (rate, bits) in [(1000, 64), (2000, 32), (2000, 160), (4000, 16), (4000, 80)] {
        let step = rate as usize / 100 * bits;
        for step in [step - 1, step + 1] {
            let seg = comb(step * 9 + 50, &every(step, 9));
            cases.push(of(format!("a dip every {step} at {rate}"), rate, &seg));
        }
    }
}

/// More bits than are handed over.
fn counts(cases: &mut Vec<Case>) {
    cases.push(of("1,200 bits", 200, &comb(2400, &every(2, 10))));
    for length in [2046, 2048, 2050, 2052] {
        cases.push(of(
            format!("about {} bits", length / 2),
            200,
            &comb(length, &every(2, 10)),
        ));
    }
    cases.push(of("dips to the last", 200, &comb(2400, &every(2, 1199))));
    for step in [17, 19, 21, 23] {
        cases.push(of(format!("a period of {step}"), 2000, &comb(3000, &every(step, 100))));
    }
}

/// A frame of each class, with clock errors.
fn frames(cases: &mut Vec<Case>, rate: u32) {
    for (class, clock) in [(0, 1.0), (1, 0.99), (2, 1.01), (3, 1.003), (4, 0.997)] {
        let uplink = Uplink::new(
            class,
            0xbeef,
            7,
            0,
            false,
            &[1, 2, 3, 4, 5, 6, 7, 8, 9, 10, 11, 12, 13, 14],
        );
        let shape = Shape {
            clock,
            ..Shape::clean(-60.0)
        };
        let envelope = shape.envelope(&uplink.bits(class % 3, 16), rate);
        let mut air = signal::Air::quiet(rate, envelope.len() + 40, -110.0);
        air.send(20, &envelope);
        cases.push(of(format!("class {class} at {rate}"), rate, &air.samples()));
    }
}

fn refused(cases: &mut Vec<Case>) {
    let seg = comb(400, &every(10, 20));
    for rate in [0, 199, 4001] {
        cases.push(of(format!("rate {rate}"), rate, &seg));
    }
    let mut bad = seg;
    bad[399] = f32::NAN;
    cases.push(of("a sample that is none", 1000, &bad));
    bad.resize(2401, -60.0);
    cases.push(of("12 s and one more, a sample that is none", 200, &bad));
}

pub fn random(rng: &mut Rng) -> Case {
    let rate = signal::rate(rng);
    let (label, seg) = match rng.below(5) {
        0 => {
            let per_bit = (rate / 100) as usize;
            let count = rng.range(5, 60);
            let mut at = 0;
            let mut places = vec![];
            for _ in 0..count {
                at += rng.range(1, 3) * per_bit + rng.below(per_bit / 3 + 2);
                places.push(at);
            }
            let tail = rng.range(1, 4 * per_bit);
            ("dips of random places", comb(at + tail, &places))
        }
        1 => {
            let n = rng.range(0, 1500);
            ("noise", (0..n).map(|_| rng.real(-100.0, -40.0) as f32).collect())
        }
        _ => ("a frame", dips::frame(rng, rate)),
    };
    let most = 12 * rate as usize;
    let seg = &seg[..seg.len().min(most)];
    let whole = of(label, rate, seg);
    if rng.chance(0.01) { cut(rng, 0, whole) } else { whole }
}
