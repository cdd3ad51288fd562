//! Inputs of `tracker`.

mod edges;
mod given;

use super::band::{Band, Receiver, STEP_HZ};
use super::put::Put;
use super::rng::Rng;
use super::signal;
use super::{Case, case, cut};

pub use edges::directed;

/// Bytes before the first call.
const HEADER: usize = 16;
const BASE: u32 = 868_130_000;
const QUIET: f32 = -110.0;
const LOUD: f32 = -60.0;

#[derive(Clone)]
struct Calls(Put);

impl Calls {
    fn new(rate: u32, base: u32, step: f64) -> Self {
        Self(Put::new().u32(rate).u32(base).f64(step))
    }

    fn tuned(self, hz: u32) -> Self {
        Self(self.0.u8(0).u32(hz))
    }

    fn samples(self, dbm: &[f32]) -> Self {
        Self(self.0.u8(1).f32s(dbm))
    }

    fn level(self, n: usize, dbm: f32) -> Self {
        self.samples(&vec![dbm; n])
    }

    fn cfo(self, raw: &[u16]) -> Self {
        Self(self.0.u8(2).u16s(raw))
    }

    /// n times the same signed reading.
    fn readings(self, n: usize, value: i32) -> Self {
        self.cfo(&vec![value as u16 & 0xfff; n])
    }

    fn next(self) -> Self {
        Self(self.0.u8(3))
    }

    fn frame_frequency(self, rank: u8, time: f64, end: f64) -> Self {
        Self(self.0.u8(4).u8(rank).f64(time).f64(end))
    }

    fn frame1(self, downlink: bool, spans: &[(u8, f64, f64)]) -> Self {
        let put = self.0.u8(5).u8(downlink.into()).u8(spans.len() as u8);
        Self(spans.iter().fold(put, |put, s| put.u8(s.0).f64(s.1).f64(s.2)))
    }

    fn freq(self) -> Self {
        Self(self.0.u8(6))
    }

    fn case(self, label: impl Into<String>) -> Case {
        case(label, self.0)
    }
}

pub fn random(rng: &mut Rng) -> Case {
    let rate = if rng.chance(0.5) {
        rng.range(200, 500) as u32
    } else {
        signal::rate(rng)
    };
    if rng.chance(0.25) {
        return given::random(rng, rate);
    }
    let whole = if rng.chance(0.7) {
        followed(rng, rate).case("a receiver that obeys")
    } else {
        soup(rng, rate).case("calls at random")
    };
    if rng.chance(0.03) {
        cut(rng, HEADER, whole)
    } else {
        whole
    }
}

/// Devices on a band, a receiver that tunes where the tracker says, and questions about the frames.
fn followed(rng: &mut Rng, rate: u32) -> Calls {
    let step = rng.pick(&[STEP_HZ, STEP_HZ, 61.0, 200.0]);
    let samples = (rng.range(8, 40) * rate as usize).min(60_000);
    let band = Band::random(rng, rate, samples, BASE, step);
    let mut receiver = Receiver::new(rate, BASE, step);
    let mut calls = Calls::new(rate, BASE, step);
    let dbm = signal::from_raw(&band.air.raw());
    let line = 8 * rng.pick(&[1, 5, 25]);
    let mut at = 0;
    for samples in dbm.chunks(line) {
        receiver.settle();
        let cfo: Vec<u16> = (0..samples.len().div_ceil(8))
            .map(|k| band.register(rng, at + 8 * k, receiver.lo))
            .collect();
        calls = calls.tuned(receiver.lo).samples(samples).cfo(&cfo).next();
        receiver.hear(rng, true, samples, &cfo);
        at += samples.len();
        for e in band.emissions.iter().filter(|e| (at - line..at).contains(&e.to)) {
            let (time, end) = e.span(rate);
            calls = calls.frame_frequency(e.rank as u8, time, end);
        }
    }
    let spans: Vec<(u8, f64, f64)> = band
        .emissions
        .iter()
        .map(|e| (e.rank as u8, e.span(rate).0, e.span(rate).1))
        .collect();
    for three in spans.windows(3) {
        calls = calls.frame1(true, three).frame1(false, three);
    }
    calls.freq()
}

fn soup(rng: &mut Rng, rate: u32) -> Calls {
    let step = rng.real(0.01, 10_000.0);
    let mut calls = Calls::new(rate, rng.next() as u32, step);
    let mut level = QUIET;
    let mut seconds = 0.0;
    for _ in 0..rng.range(5, 150) {
        calls = match rng.below(10) {
            0 => calls.tuned(rng.pick(&[BASE, BASE + 1, 0, u32::MAX])),
            1..=3 => {
                let n = rng.pick(&[0, 1, 8, 30, 100, 1000]) * rate as usize / 1000;
                level = rng.pick(&[level, level, QUIET, LOUD, -90.0, -95.0]);
                seconds += n as f64 / f64::from(rate);
                let dbm: Vec<f32> = (0..n).map(|_| level + rng.pick(&[0.0, 0.5])).collect();
                calls.samples(&dbm)
            }
            4 | 5 => {
                let n = rng.pick(&[0, 1, 4, 5, 6, 30, 700]);
                let raw: Vec<u16> = (0..n).map(|_| rng.next() as u16).collect();
                calls.cfo(&raw)
            }
            6 | 7 => calls.next(),
            8 => {
                let time = rng.real(-0.5, seconds);
                calls.frame_frequency(rng.below(3) as u8, time, time + rng.real(0.0, 2.0))
            }
            _ => {
                let (a, b) = (rng.real(-0.5, seconds), rng.real(-0.5, seconds));
                calls.frame1(rng.chance(0.5), &[(1, a, a + 1.5), (2, b, b + 1.5), (0, b, b + 2.0)])
            }
        };
    }
    calls.freq()
}

/// The run that the gate replays: a followed band, calls that are refused, then trackers that are handed in.
pub fn sample() -> Case {
    let calls = followed(&mut Rng::new(8), 250)
        .samples(&[f32::NAN])
        .level(3001, QUIET)
        .readings(4097, 0);
    let calls = calls
        .frame_frequency(3, 0.0, 1.0)
        .frame1(true, &[(0, 0.0, 2e9)])
        .level(100, LOUD)
        .next();
    let calls = (0..70).fold(calls, |calls, i| calls.tuned(BASE + i)).freq();
    given::sample(calls).case("sample")
}
