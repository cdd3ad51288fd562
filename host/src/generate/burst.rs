//! Inputs of `burst`.

use super::frame::Uplink;
use super::put::Put;
use super::rng::Rng;
use super::signal::{self, Air, Shape};
use super::{Case, case, cut};
use crate::rust::demod::{Burst, BurstOptions, find_bursts, noise_floor};

fn of(label: impl Into<String>, rate: u32, t0: f64, b: &Burst, dbm: &[f32]) -> Case {
    let put = Put::new().u32(rate).f64(t0).u64(b.start as u64).u64(b.end as u64);
    case(label, put.f32(b.peak_dbm).f32(b.floor_dbm).f32s(dbm))
}

/// The rate of the directed cases: low, so that they stay small.
const RATE: u32 = 300;

pub fn directed() -> Vec<Case> {
    let uplink = Uplink::new(2, 0x00ab_cdef, 0x321, 2, true, &[0xca, 0xfe]);
    let envelope = Shape::clean(-60.0).envelope(&uplink.bits(0, 16), RATE);
    let mut air = Air::quiet(RATE, envelope.len() + 300, -110.0);
    air.send(150, &envelope);
    let dbm = air.samples();
    let burst = Burst {
        start: 150,
        end: 150 + envelope.len(),
        peak_dbm: -60.0,
        floor_dbm: -110.0,
    };
    let mut cases = vec![of("a frame", RATE, 0.0, &burst, &dbm)];
    let last = dbm.len();
    let most = 1 << 40;
    for (start, end) in [
        (0, last),
        (0, last + 500),
        (20, last),
        (21, burst.end),
        (130, burst.end),
        (170, burst.end),
        (190, burst.end),
        (150, burst.end - 40),
        (150, burst.end - 500),
        (150, 150),
        (150, 0),
        (last, last),
        (last + 19, last + 30),
        (last + 5000, last + 6000),
        (0, most),
        (most, most),
    ] {
        cases.push(of(
            format!("from {start} to {end}"),
            RATE,
            12.5,
            &Burst { start, end, ..burst },
            &dbm,
        ));
    }
    for t0 in [0.1, -0.0, 1e9, -1e9] {
        cases.push(of(format!("t0 {t0}"), RATE, t0, &burst, &dbm));
    }
    for v in [-0.0, -200.0, 100.0, f32::INFINITY, f32::NEG_INFINITY] {
        let burst = Burst { peak_dbm: v, ..burst };
        cases.push(of(format!("peak {v}"), RATE, 0.0, &burst, &dbm));
    }
    for v in [-0.0, -200.0, 100.0] {
        let burst = Burst { floor_dbm: v, ..burst };
        cases.push(of(format!("floor {v}"), RATE, 0.0, &burst, &dbm));
    }
    for rate in [325, 375, 425, 500] {
        pads(&mut cases, rate);
    }
    depths(&mut cases);
    refused(&mut cases, &burst);
    cases
}

/// Depths about whole half decibels and about 255 of them; depths that differ; and dips off the grid, which are skipped.
fn depths(cases: &mut Vec<Case>) {
    for depth in [6.03125, 6.5, 20.25, 20.5, 127.25, 127.5, 128.0, 200.0] {
        cases.push(deep(format!("dips of {depth} dB"), |_| depth, None));
    }
    let rng = &mut Rng::new(33);
    for i in 0..6 {
        let drawn: Vec<f64> = (0..200).map(|_| rng.real(6.5, 150.0)).collect();
        cases.push(deep(format!("dips of other depths, {i}"), |n| drawn[n], None));
    }
    for off in [6.5, 150.0] {
        let label = format!("dips of {off} dB off the grid");
        cases.push(deep(label, |n| 20.0 + n as f64 / 4.0, Some(off)));
    }
}

/// A frame at 200/s whose dips, one sample each, have a depth by their number; where the level stays, dips of another depth half a bit
/// off the grid.
fn deep(label: String, depth: impl Fn(usize) -> f64, off_grid: Option<f64>) -> Case {
    const LEVEL: f32 = 50.0;
    let rate = 200;
    let uplink = Uplink::new(4, 0x00ab_cdef, 0x321, 0, true, &[0xff; 12]);
    let bits = uplink.bits(0, 16);
    let mut dbm = vec![LEVEL; 2 * bits.len() + 4];
    let turns = (1..bits.len()).filter(|&i| !bits[i]);
    for (n, bit) in turns.enumerate() {
        dbm[2 * bit] = LEVEL - depth(n) as f32;
    }
    if let Some(depth) = off_grid {
        for bit in (20..bits.len() - 2).step_by(2) {
            if dbm[2 * bit - 1..2 * bit + 4].iter().all(|&v| v == LEVEL) {
                dbm[2 * bit + 1] = LEVEL - depth as f32;
            }
        }
    }
    let burst = Burst {
        start: 0,
        end: dbm.len(),
        peak_dbm: LEVEL,
        floor_dbm: -110.0,
    };
    of(label, rate, 0.0, &burst, &dbm)
}

/// A frame that ends in ones on air that stays loud: where the padding ends decides how many there are.
fn pads(cases: &mut Vec<Case>, rate: u32) {
    let ends_in_ones = |device: &u32| {
        let frame = Uplink::new(0, *device, 1, 0, false, &[]).frame(0);
        frame.ends_with(&[true, true, true])
    };
    let device = (0..).find(ends_in_ones).expect("some CRC ends so");
    let bits = Uplink::new(0, device, 1, 0, false, &[]).bits(0, 16);
    let envelope = Shape::clean(-60.0).envelope(&bits, rate);
    let pad = rate as usize / 50;
    let mut air = Air::quiet(rate, envelope.len() + 200, -60.0);
    air.background(0, -110.0);
    air.background(100 + envelope.len() / 2, -60.0);
    air.dbm[100..100 + envelope.len()].copy_from_slice(&envelope);
    let per_bit = rate as usize / 100;
    for back in 0..5 * per_bit {
        let burst = Burst {
            start: 100,
            end: 100 + envelope.len() - pad - back,
            peak_dbm: -60.0,
            floor_dbm: -110.0,
        };
        cases.push(of(
            format!("padding at {rate}, {back} back"),
            rate,
            0.0,
            &burst,
            &air.samples(),
        ));
    }
}

/// Short lists, since what is refused doesn't depend on them.
fn refused(cases: &mut Vec<Case>, burst: &Burst) {
    let mut dbm = vec![-100.0; 20];
    cases.push(of("few samples", RATE, 0.0, burst, &dbm));
    for rate in [0, 199, 4001] {
        cases.push(of(format!("rate {rate}"), rate, f64::NAN, burst, &dbm));
    }
    for (start, end) in [((1 << 40) + 1, 0), (0, (1 << 40) + 1), (usize::MAX, usize::MAX)] {
        let burst = Burst { start, end, ..*burst };
        cases.push(of(format!("from {start} to {end}"), RATE, 0.0, &burst, &dbm));
    }
    for t0 in [1e9 + 0.001, -1e9 - 0.001, f64::NAN, f64::INFINITY] {
        cases.push(of(format!("t0 {t0}"), RATE, t0, burst, &dbm));
    }
    for v in [100.5, -200.5, f32::INFINITY, f32::NEG_INFINITY, f32::NAN] {
        let (peak, floor) = (Burst { peak_dbm: v, ..*burst }, Burst { floor_dbm: v, ..*burst });
        cases.push(of(format!("peak {v}"), RATE, 0.0, &peak, &dbm));
        cases.push(of(format!("floor {v}"), RATE, 0.0, &floor, &dbm));
    }
    dbm[0] = f32::NAN;
    cases.push(of("a sample outside the burst", RATE, f64::NAN, burst, &dbm));
    dbm.resize(2401, -100.0);
    cases.push(of("12 s and one more", 200, f64::NAN, burst, &dbm));
    cases.push(of("no samples", RATE, 0.0, burst, &[]));
}

pub fn random(rng: &mut Rng) -> Case {
    let rate = signal::rate(rng);
    let most = rng.pick(&[2, 3, 3, 4]) * rate as usize;
    let samples = rng.range(most / 2, most);
    let dbm = signal::scene(rng, rate, samples).samples();
    let found = find_bursts(&dbm, rate, &BurstOptions::default(), noise_floor(&dbm));
    let mut burst = Burst {
        start: rng.below(samples),
        end: rng.below(samples + 100),
        peak_dbm: rng.real(-100.0, 0.0) as f32,
        floor_dbm: -100.0,
    };
    if !found.is_empty() && rng.chance(0.9) {
        burst = rng.pick(&found);
        let pad = rate as usize / 50;
        if rng.chance(0.5) {
            burst.start = (burst.start + rng.below(2 * pad + 1)).saturating_sub(pad);
            burst.end = (burst.end + rng.below(2 * pad + 1)).saturating_sub(pad);
        }
    }
    let t0 = if rng.chance(0.5) { 0.0 } else { rng.real(-1e3, 1e6) };
    let whole = of("a scene", rate, t0, &burst, &dbm);
    if rng.chance(0.01) { cut(rng, 0, whole) } else { whole }
}

#[cfg(test)]
mod tests {
    use super::*;
    use crate::oracle::lines;

    /// Byte 33 of the record.
    fn byte(case: &Case) -> u8 {
        let answer = lines("burst", &case.bytes).expect("it is a format");
        u8::from_str_radix(answer.get(66..68).expect("a record"), 16).expect("two digits")
    }

    /// "in half decibels, rounded down, 255 if more"
    #[test]
    fn half_decibels() {
        let mut cases = vec![];
        depths(&mut cases);
        let bytes: Vec<u8> = cases.iter().map(byte).collect();
        assert_eq!(bytes[..8], [12, 13, 40, 41, 254, 255, 255, 255]);
    }

    /// The skipped dips would move the median, downwards or upwards.
    #[test]
    fn skipped_dips() {
        let rising = |n: usize| 20.0 + n as f64 / 4.0;
        let without = byte(&deep(String::new(), rising, None));
        for off in [6.5, 150.0] {
            assert_eq!(byte(&deep(String::new(), rising, Some(off))), without);
        }
    }
}
