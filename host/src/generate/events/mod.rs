//! Inputs of `events`: a stream of air, cut into calls.

mod depths;
mod edges;
pub(super) mod given;

use super::frame::Uplink;
use super::put::Put;
use super::rng::Rng;
use super::signal::{self, Air, Shape};
use super::{Case, case, cut};

pub use edges::directed;

/// Bytes before the first call.
pub const HEADER: usize = 4;

/// A run under construction.
pub struct Calls(pub(super) Put);

impl Calls {
    pub fn new(rate: u32) -> Self {
        Self(Put::new().u32(rate))
    }

    pub fn push(self, dbm: &[f32]) -> Self {
        Self(self.0.u8(0).f32s(dbm))
    }

    pub fn push_raw(self, raw: &[u8]) -> Self {
        Self(self.0.u8(1).bytes(raw))
    }

    pub fn flush(self) -> Self {
        Self(self.0.u8(2))
    }

    /// Pushes of n samples each.
    pub fn pushes(self, n: usize, dbm: &[f32]) -> Self {
        dbm.chunks(n).fold(self, Calls::push)
    }

    pub fn case(self, label: impl Into<String>) -> Case {
        case(label, self.0)
    }
}

/// A message of two payload bytes: a frame of 1.45 s.
pub fn two_bytes(device: u32) -> Uplink {
    Uplink::new(2, device, 0x123, 2, false, &[0xab, 0xcd, 1, 2, 3, 4])
}

/// The frame's envelope, with a whole number of samples to a bit where the clock's error allows it; each rank has its own depth.
pub fn envelope(uplink: &Uplink, rank: usize, rate: u32, level: f64) -> Vec<f64> {
    deep(uplink, rank, rate, level, 24.0 + 3.5 * rank as f64)
}

/// The same with dips of this depth.
fn deep(uplink: &Uplink, rank: usize, rate: u32, level: f64, depth: f64) -> Vec<f64> {
    let clock = f64::from((rate + 50) / 100 * 100) / f64::from(rate);
    let clock = if (clock - 1.0).abs() <= 0.01 { clock } else { 1.0 };
    let shape = Shape {
        clock,
        depth,
        ..Shape::clean(level)
    };
    shape.envelope(&uplink.bits(rank, 16), rate)
}

/// Cuts samples into calls: one length throughout, or lengths at random, with flushes and refused calls.
fn cut_into_calls(rng: &mut Rng, rate: u32, air: &Air) -> Calls {
    let r = rate as usize;
    let raw = air.raw();
    let dbm = if rng.chance(0.5) {
        air.samples()
    } else {
        signal::from_raw(&raw)
    };
    let steady = rng.pick(&[8, 8, 64, r / 2, r, 3 * r, 12 * r]);
    let (random, flushes) = (rng.chance(0.4), rng.chance(0.3));
    let bytes = rng.pick(&[0.0, 0.5, 1.0]);
    let mut calls = Calls::new(rate);
    let mut at = 0;
    while at < dbm.len() {
        let n = if random { rng.below(2 * r) } else { steady };
        let end = dbm.len().min(at + n);
        calls = if rng.chance(bytes) {
            calls.push_raw(&raw[at..end])
        } else {
            calls.push(&dbm[at..end])
        };
        at = end;
        if flushes && rng.chance(0.1) {
            calls = calls.flush();
        }
        if rng.chance(0.01) {
            calls = refused_call(rng, rate, calls);
        }
    }
    if rng.chance(0.8) { calls.flush() } else { calls }
}

fn refused_call(rng: &mut Rng, rate: u32, calls: Calls) -> Calls {
    let over = 12 * rate as usize + 1;
    match rng.below(6) {
        0 => calls.push(&vec![-100.0; over]),
        1 => calls.push_raw(&vec![200; over]),
        2 => calls.push(&[-100.0, f32::NAN]),
        3 => calls.push(&[f32::INFINITY]),
        4 => calls.push(&[-200.5, -100.0]),
        _ => calls.push(&[]),
    }
}

pub fn random(rng: &mut Rng) -> Case {
    let rate = if rng.chance(0.5) {
        rng.range(200, 500) as u32
    } else {
        signal::rate(rng)
    };
    let seconds = rng.range(5, 45);
    let samples = seconds * rate as usize;
    let (label, air) = match rng.below(6) {
        0 => {
            let low = rng.real(-120.0, -100.0) as f32;
            let high = low + rng.pick(&[15.0, 15.5, 40.0]);
            let dbm = signal::blocks(rng, rate, samples, low, high);
            let dbm = dbm.iter().map(|&v| v.into()).collect();
            ("blocks", Air { rate, dbm })
        }
        1 => ("busy air", busy(rng, rate, samples)),
        _ => ("a scene", signal::scene(rng, rate, samples)),
    };
    if rng.chance(0.25) {
        return given::random(rng, rate, &air);
    }
    let whole = cut_into_calls(rng, rate, &air).case(label);
    if rng.chance(0.03) {
        cut(rng, HEADER, whole)
    } else {
        whole
    }
}

/// Frames one after the other, of few devices and counters, at levels that rise and fall.
fn busy(rng: &mut Rng, rate: u32, samples: usize) -> Air {
    let mut air = Air::quiet(rate, samples, -115.0);
    if rng.chance(0.5) {
        let level = rng.real(-125.0, -105.0).floor();
        air.background(rng.below(samples), level);
    }
    let mut at = rng.below(rate as usize);
    while at < samples {
        let class = rng.below(3);
        let uplink = Uplink::new(
            class,
            rng.below(3) as u32,
            rng.below(2) as u16,
            2,
            rng.chance(0.5),
            &rng.bytes(6),
        );
        let rank = rng.below(3);
        let level = rng.real(-100.0, -50.0).floor();
        let envelope = envelope(&uplink, rank, rate, level);
        air.send(at, &envelope);
        at += envelope.len() + rng.pick(&[41, 60, 300, 700]) * rate as usize / 1000;
    }
    air
}

/// A run at 250/s: three repetitions, a rank twice, a floor that sinks, drops, flushes and refused calls, then states that are handed in.
pub fn sample() -> Case {
    let rate = 250;
    let mut rng = Rng::new(250);
    let mut air = Air::quiet(rate, 18_000, -110.0);
    air.background(9000, -120.0);
    for (rank, at) in [
        (0, 300),
        (1, 1300),
        (2, 2300),
        (1, 5000),
        (0, 6000),
        (0, 7000),
        (0, 11_000),
    ] {
        air.send(at, &envelope(&two_bytes(1), rank, rate, -60.0));
    }
    air.send(8000, &envelope(&two_bytes(2), 1, rate, -100.0));
    air.send(9100, &envelope(&two_bytes(2), 2, rate, -70.0));
    for (i, class) in [0, 1, 3, 4, 0].iter().enumerate() {
        let uplink = Uplink::new(*class, 77, i as u16, 3, true, &[1, 2, 3, 4, 5, 6, 7, 8]);
        air.send(12_500 + 1000 * i, &envelope(&uplink, i % 3, rate, -45.0));
    }
    let mut flipped = two_bytes(3).bits(0, 16);
    flipped[70] = !flipped[70];
    air.send(4000, &Shape::clean(-60.0).envelope(&flipped, rate));
    let raw = air.raw();
    let dbm = signal::from_raw(&raw);
    let mut calls = Calls::new(rate);
    let mut at = 0;
    while at < raw.len() {
        let n = rng.pick(&[8, 60, 124, 125, 250, 250, 1000]);
        let end = raw.len().min(at + n);
        calls = if n < 250 {
            calls.push(&dbm[at..end])
        } else {
            calls.push_raw(&raw[at..end])
        };
        if rng.chance(0.03) {
            calls = calls.flush();
        }
        if rng.chance(0.03) {
            calls = calls.push(&[-100.0, f32::NAN]);
        }
        at = end;
    }
    let calls = calls.push_raw(&[200; 3001]).flush();
    given::sample(rate, &dbm, calls).case("sample")
}
