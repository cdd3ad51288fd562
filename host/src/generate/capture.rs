//! Inputs of `capture`.

use super::frame::Uplink;
use super::put::Put;
use super::rng::Rng;
use super::signal::{self, Air, Shape};
use super::{Case, case, cut};

fn of(label: impl Into<String>, rate: u32, t0: f64, floor: Option<f32>, dbm: &[f32]) -> Case {
    let put = Put::new().u32(rate).f64(t0).u8(floor.is_none().into());
    case(label, put.f32(floor.unwrap_or(f32::NAN)).f32s(dbm))
}

/// Frames of all ranks one after the other, the first from the first sample on.
fn three(rate: u32) -> Vec<f32> {
    deep(rate, -60.0, -110.0, [Shape::clean(-60.0).depth; 3])
}

/// The same at this level over this background, each frame with dips of its own depth.
fn deep(rate: u32, level: f64, background: f64, depths: [f64; 3]) -> Vec<f32> {
    let uplink = Uplink::new(0, 0x00ab_cdef, 0x321, 3, true, &[]);
    let envelopes = [0, 1, 2].map(|rank| {
        let shape = Shape {
            depth: depths[rank],
            ..Shape::clean(level)
        };
        shape.envelope(&uplink.bits(rank, 16), rate)
    });
    let gap = rate as usize / 2;
    let length = envelopes.iter().map(Vec::len).sum::<usize>();
    let mut air = Air::quiet(rate, length + 3 * gap, background);
    let mut at = 0;
    for envelope in &envelopes {
        air.send(at, envelope);
        at += envelope.len() + gap;
    }
    air.samples()
}

pub fn directed() -> Vec<Case> {
    let mut cases = vec![];
    for rate in [200, 250, 1000] {
        cases.push(of(
            format!("three frames at {rate}"),
            rate,
            0.0,
            Some(-110.0),
            &three(rate),
        ));
        cases.push(of(format!("measured floor at {rate}"), rate, 1e9, None, &three(rate)));
    }
    let dbm = three(300);
    for floor in [-75.0, -74.99, -200.0, 100.0] {
        cases.push(of(format!("floor {floor}"), 300, 0.25, Some(floor), &dbm));
    }
    for t0 in [-1e9, 1e9, -0.0] {
        cases.push(of(format!("t0 {t0}"), 300, t0, None, &dbm));
    }
    for depths in [[6.75, 20.25, 20.5], [127.25, 127.5, 128.0], [60.0, 7.0, 150.0]] {
        let dbm = deep(200, 20.0, -180.0, depths);
        cases.push(of(format!("depths {depths:?}"), 200, 0.0, Some(-180.0), &dbm));
    }
    let mut few = vec![-100.0; 20];
    for floor in [-200.5, 100.5, f32::NAN] {
        cases.push(of(format!("floor {floor}"), 400, 0.25, Some(floor), &few));
    }
    for t0 in [1e9 + 0.001, f64::NAN, f64::NEG_INFINITY] {
        cases.push(of(format!("t0 {t0}"), 400, t0, None, &few));
    }
    for rate in [0, 199, 4001] {
        cases.push(of(format!("rate {rate}"), rate, f64::NAN, None, &few));
    }
    few[7] = f32::NAN;
    cases.push(of("a sample that is none", 400, f64::NAN, None, &few));
    few.resize(2401, -100.0);
    cases.push(of("12 s and one more", 200, f64::NAN, None, &few));
    cases.push(of("no samples", 400, 0.0, None, &[]));
    cases.push(of("no samples, given floor", 400, 0.0, Some(-100.0), &[]));
    cases.push(of("as many bursts as can be", 200, 0.0, Some(-110.0), &bursts(201)));
    cases.push(of("bursts of 300 ms", 200, 0.0, Some(-110.0), &bursts(61)));
    for rate in [1000, 2000, 3999, 4000] {
        for span in [rate - 1, rate, rate + 1] {
            let label = format!("a frame of {span} samples at {rate}");
            cases.push(of(label, rate, 0.0, Some(-80.0), &spanning(rate, span as usize)));
        }
    }
    cases
}

/// A frame of class 0 with the shortest preamble. From the first sample over -65 dBm to the last are so many samples; those around them,
/// two bits on each side, lie under it and within a burst's segment.
fn spanning(rate: u32, span: usize) -> Vec<f32> {
    let uplink = Uplink::new(0, 0x00ab_cdef, 0x321, 3, true, &[]);
    let before = rate as usize / 50;
    let loud = before..=before + span;
    let envelope = Shape::clean(-60.0).envelope(&uplink.bits(0, 8), rate);
    let lower = |(i, level)| if loud.contains(&i) { level } else { level - 6.0 };
    let envelope: Vec<f64> = envelope.into_iter().enumerate().map(lower).collect();
    let mut air = Air::quiet(rate, envelope.len() + before, -110.0);
    air.send(0, &envelope);
    air.samples()
}

/// Bursts of so many samples at 200/s, 9 quiet ones between them, with dips that make bits.
fn bursts(samples: usize) -> Vec<f32> {
    let burst: Vec<f32> = (0..samples).map(|i| if i % 4 == 2 { -90.0 } else { -60.0 }).collect();
    let mut dbm = vec![];
    while dbm.len() + burst.len() <= 2400 {
        dbm.extend(&burst);
        dbm.extend([-110.0; 9]);
    }
    dbm.truncate(2400);
    dbm
}

pub fn random(rng: &mut Rng) -> Case {
    let rate = signal::rate(rng);
    if rng.chance(0.1) {
        let second = rate as usize;
        let dbm = spanning(rate, rng.range(second * 98 / 100, second * 102 / 100));
        return of("a frame of about a second", rate, 0.0, Some(-80.0), &dbm);
    }
    let most = rng.pick(&[2, 3, 4, 8, 12]) * rate as usize;
    let samples = rng.range(most / 2, most);
    let air = signal::scene(rng, rate, samples);
    let dbm = if rng.chance(0.5) {
        air.samples()
    } else {
        signal::from_raw(&air.raw())
    };
    let floor = rng.chance(0.3).then(|| rng.real(-130.0, -80.0) as f32);
    let t0 = if rng.chance(0.5) { 0.0 } else { rng.real(-1e3, 1e6) };
    let whole = of("a scene", rate, t0, floor, &dbm);
    if rng.chance(0.01) { cut(rng, 0, whole) } else { whole }
}
