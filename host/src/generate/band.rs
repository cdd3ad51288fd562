//! Air with frequencies: devices whose repetitions lie 6 kHz above and below their first frame, and a receiver that
//! tunes where the tracker says.

use super::frame::Uplink;
use super::rng::Rng;
use super::signal::{Air, Shape};
pub use crate::listener::STEP_HZ;
use crate::oracle::tracker::Tracker;

const CFO_SCALE: f64 = 0.93;
const DELTA_HZ: f64 = 6000.0;
const FRAME_GAP_S: f64 = 2.43;

/// One frame on air.
pub struct Emission {
    pub from: usize,
    pub to: usize,
    pub rank: usize,
    hz: f64,
}

impl Emission {
    /// When it was on air, in seconds.
    pub fn span(&self, rate: u32) -> (f64, f64) {
        let rate = f64::from(rate);
        (self.from as f64 / rate, self.to as f64 / rate)
    }
}

pub struct Band {
    pub air: Air,
    pub emissions: Vec<Emission>,
    /// Hz by which a frame rises from sample to sample, about its middle: then the median tells which readings are in it
    pub drift: f64,
    step: f64,
}

impl Band {
    /// Nothing is sent yet.
    pub fn quiet(rate: u32, samples: usize, level: f64, step: f64) -> Self {
        Self {
            air: Air::quiet(rate, samples, level),
            emissions: vec![],
            drift: 0.0,
            step,
        }
    }

    pub fn random(rng: &mut Rng, rate: u32, samples: usize, base: u32, step: f64) -> Self {
        let mut band = Self::quiet(rate, samples, rng.real(-125.0, -105.0).floor(), step);
        let mut at = rng.range(rate as usize / 2, 3 * rate as usize);
        while at < samples {
            at = band.message(rng, at, base) + rng.range(rate as usize, 15 * rate as usize);
        }
        let noise = rng.pick(&[0.0, 0.5, 2.0]);
        if noise > 0.0 {
            band.air.noise(rng, noise);
        }
        band
    }

    /// Three repetitions from a sample on, each lost at times; gives the sample after the last.
    fn message(&mut self, rng: &mut Rng, mut at: usize, base: u32) -> usize {
        let uplink = Uplink::random(rng);
        let reach = rng.pick(&[3000.0, 9000.0, 60_000.0]);
        let first = f64::from(base) + rng.real(-reach, reach);
        let delta = if rng.chance(0.85) {
            DELTA_HZ
        } else {
            rng.real(4000.0, 8000.0)
        };
        let shape = Shape::random(rng, rng_level(&self.air), self.air.rate);
        for (rank, hz) in [first, first + delta, first - delta].into_iter().enumerate() {
            let sent = rng.chance(0.9);
            at = self.frame(at, &uplink, rank, &shape, sent.then_some(hz));
        }
        at
    }

    /// One repetition from a sample on, or the time that it would take; gives the sample at which the next one starts.
    fn frame(&mut self, from: usize, uplink: &Uplink, rank: usize, shape: &Shape, sent: Option<f64>) -> usize {
        let envelope = shape.envelope(&uplink.bits(rank, 18), self.air.rate);
        let to = from + envelope.len();
        if let Some(hz) = sent {
            self.air.send(from, &envelope);
            self.emissions.push(Emission { from, to, rank, hz });
        }
        to + (FRAME_GAP_S * f64::from(self.air.rate)) as usize
    }

    /// The named repetitions of a message from a sample on, the first at a frequency, none of them lost.
    pub fn send(&mut self, mut at: usize, uplink: &Uplink, ranks: &[usize], first: f64) {
        let shape = Shape::clean(rng_level(&self.air));
        for (rank, hz) in [first, first + DELTA_HZ, first - DELTA_HZ].into_iter().enumerate() {
            at = self.frame(at, uplink, rank, &shape, ranks.contains(&rank).then_some(hz));
        }
    }

    /// What the register reads at a sample, tuned to `lo`: noise where nothing is sent.
    pub fn register(&self, rng: &mut Rng, at: usize, lo: u32) -> u16 {
        let Some(e) = self.emissions.iter().find(|e| (e.from..e.to).contains(&at)) else {
            return rng.next() as u16 & 0xfff;
        };
        let shake = rng.real(-1.0, 1.0);
        let hz = e.hz + self.drift * (at as f64 - (e.from + e.to) as f64 / 2.0);
        let steps = (hz - f64::from(lo)) * CFO_SCALE / self.step + shake;
        let high_bits = if rng.chance(0.1) { 0xf000 } else { 0 };
        (steps.round().clamp(-2048.0, 2047.0) as i32 as u16 & 0xfff) | high_bits
    }
}

/// Well above the background.
fn rng_level(air: &Air) -> f64 {
    air.dbm[0] + 45.0
}

/// A receiver that obeys the tracker, some lines later.
pub struct Receiver {
    pub lo: u32,
    rate: u32,
    step: f64,
    /// None until a frequency was reported
    tracker: Option<Tracker>,
    asked: Option<(usize, u32)>,
}

impl Receiver {
    pub fn new(rate: u32, base: u32, step: f64) -> Self {
        Self {
            lo: base,
            rate,
            step,
            tracker: None,
            asked: None,
        }
    }

    /// Before a line: tuned where it was asked to be.
    pub fn settle(&mut self) {
        match self.asked {
            Some((0, hz)) => {
                self.lo = hz;
                self.asked = None;
            }
            Some((lines, hz)) => self.asked = Some((lines - 1, hz)),
            None => {}
        }
    }

    /// A line went by, which reports the frequency or doesn't: the tracker may ask for another one. It begins with the first
    /// line that does, and without one nothing is tuned.
    pub fn hear(&mut self, rng: &mut Rng, reports: bool, dbm: &[f32], cfo: &[u16]) {
        if reports && self.tracker.is_none() {
            let tracker = Tracker::new(self.rate, self.lo, self.step);
            self.tracker = Some(tracker.expect("a rate and a step in 01's ranges"));
        }
        let Some(tracker) = &mut self.tracker else { return };
        let tuned = if reports { tracker.tuned(self.lo) } else { Ok(()) };
        let done = tuned.and(tracker.samples(dbm)).and(tracker.cfo(cfo));
        if done.is_ok()
            && let Some(hz) = tracker.inner.next_tuning()
        {
            self.asked = Some((rng.range(0, 20), hz));
        }
    }
}
