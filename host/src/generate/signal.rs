//! Samples in dBm as a receiver sees uplinks: the envelope dips where the phase turns, on the boundary before each bit 0.
//! Only sums, products and quotients, so that a seed gives the same samples everywhere.

use super::frame::{Uplink, damage};
use super::rng::Rng;

const BIT_RATE: f64 = 100.0;
/// From the end of one repetition to the start of the next, in seconds.
const FRAME_GAP_S: f64 = 2.43;
pub const RATES: [u32; 7] = [200, 201, 250, 1000, 2000, 3999, 4000];

pub fn rate(rng: &mut Rng) -> u32 {
    if rng.chance(0.6) {
        rng.pick(&RATES)
    } else {
        rng.range(200, 4000) as u32
    }
}

/// How one frame's envelope looks.
#[derive(Clone)]
pub struct Shape {
    pub level: f64,
    /// dB at the middle of a dip, and half its width in bits
    pub depth: f64,
    pub width: f64,
    /// The sender's clock against ours: 1.01 is 1 % slow
    pub clock: f64,
    /// The level rises by so much over the first so many bits
    pub ramp: (f64, f64),
    /// The level falls by so much in the middle of the frame
    pub fade: f64,
    /// Bits after the last boundary
    pub tail: f64,
    /// Place of the first sample in its bit
    pub phase: f64,
}

impl Shape {
    pub fn clean(level: f64) -> Self {
        Self {
            level,
            depth: 24.0,
            width: 0.35,
            clock: 1.0,
            ramp: (0.0, 1.0),
            fade: 0.0,
            tail: 2.0,
            phase: 0.0,
        }
    }

    pub fn random(rng: &mut Rng, level: f64, rate: u32) -> Self {
        let clean = Self::clean(level);
        // with hardly two samples a bit a frame gets through only where they keep their places in it
        let (clock, phase) = if rate < 240 && rng.chance(0.8) {
            let two = 2.0 * BIT_RATE / f64::from(rate);
            (two * (1.0 + rng.real(-0.0005, 0.0005)), rng.real(0.0, 0.12))
        } else {
            (1.0 + rng.real(-0.01, 0.01), rng.unit())
        };
        Self {
            depth: if rng.chance(0.3) {
                rng.real(7.0, 15.0)
            } else {
                rng.real(15.0, 45.0)
            },
            width: rng.real(0.2, 0.5),
            clock,
            ramp: if rng.chance(0.3) {
                (rng.real(0.0, 20.0), rng.real(1.0, 30.0))
            } else {
                clean.ramp
            },
            fade: if rng.chance(0.3) { rng.real(0.0, 12.0) } else { 0.0 },
            tail: rng.real(0.5, 3.0),
            phase,
            ..clean
        }
    }

    pub fn envelope(&self, bits: &[bool], rate: u32) -> Vec<f64> {
        let per_bit = f64::from(rate) / BIT_RATE * self.clock;
        let length = bits.len() as f64 - 1.0 + self.tail;
        let samples = (length * per_bit) as usize;
        (0..samples)
            .map(|i| self.at(bits, (i as f64 + self.phase) / per_bit, length))
            .collect()
    }

    /// The level so many bits after the start.
    fn at(&self, bits: &[bool], x: f64, length: f64) -> f64 {
        let boundary = (x + 0.5).floor();
        let off = (x - boundary).abs() / self.width;
        let turned = boundary >= 1.0 && bits.get(boundary as usize) == Some(&false);
        let dip = if turned && off < 1.0 {
            self.depth * (1.0 - off * off)
        } else {
            0.0
        };
        let rise = self.ramp.0 * (1.0 - x / self.ramp.1).max(0.0);
        let middle = 4.0 * (x / length) * (1.0 - x / length);
        self.level - rise - self.fade * middle - dip
    }
}

/// A stretch of air: the strongest of all that is sent, then noise.
pub struct Air {
    pub rate: u32,
    pub dbm: Vec<f64>,
}

impl Air {
    pub fn quiet(rate: u32, samples: usize, level: f64) -> Self {
        let dbm = vec![level; samples];
        Self { rate, dbm }
    }

    pub fn send(&mut self, at: usize, envelope: &[f64]) {
        for (place, &level) in self.dbm.iter_mut().skip(at).zip(envelope) {
            *place = place.max(level);
        }
    }

    /// The background changes from a sample on.
    pub fn background(&mut self, from: usize, level: f64) {
        for place in self.dbm.iter_mut().skip(from) {
            *place = level;
        }
    }

    pub fn noise(&mut self, rng: &mut Rng, db: f64) {
        for place in &mut self.dbm {
            *place += db * (rng.unit() - rng.unit());
        }
    }

    pub fn samples(&self) -> Vec<f32> {
        self.dbm.iter().map(|&v| v.clamp(-200.0, 100.0) as f32).collect()
    }

    /// As raw bytes: half dB, from 0 down.
    pub fn raw(&self) -> Vec<u8> {
        self.dbm
            .iter()
            .map(|&v| (-2.0 * v + 0.5).clamp(0.0, 255.0) as u8)
            .collect()
    }
}

pub fn from_raw(raw: &[u8]) -> Vec<f32> {
    raw.iter().map(|&r| -f32::from(r) / 2.0).collect()
}

/// How hard the air makes it: mostly a frame gets through.
struct Weather {
    devices: usize,
    /// Least dB over the background
    margin: f64,
    noise: f64,
    /// Chance that a frame is damaged or lost
    damaged: f64,
    lost: f64,
}

impl Weather {
    fn random(rng: &mut Rng) -> Self {
        if rng.chance(0.7) {
            return Self {
                devices: rng.range(1, 2),
                margin: 25.0,
                noise: rng.pick(&[0.0, 0.2, 1.0]),
                damaged: 0.15,
                lost: 0.1,
            };
        }
        Self {
            devices: rng.range(1, 5),
            margin: 13.0,
            noise: rng.pick(&[0.0, 1.0, 3.0, 6.0]),
            damaged: 0.4,
            lost: 0.3,
        }
    }
}

/// Air with several devices, each sending some of its three repetitions, some of them damaged.
pub fn scene(rng: &mut Rng, rate: u32, samples: usize) -> Air {
    let weather = Weather::random(rng);
    let background = rng.real(-130.0, -100.0).floor();
    let mut air = Air::quiet(rate, samples, background);
    if rng.chance(0.2) {
        let level = background + rng.real(-15.0, 10.0);
        air.background(rng.below(samples + 1), level);
    }
    for _ in 0..weather.devices {
        let uplink = Uplink::random(rng);
        message(rng, &mut air, &weather, background, &uplink);
    }
    if weather.noise > 0.0 {
        air.noise(rng, weather.noise);
    }
    air
}

/// Sends the repetitions of one message, the first where it fits.
fn message(rng: &mut Rng, air: &mut Air, weather: &Weather, background: f64, uplink: &Uplink) {
    let level = background + rng.real(weather.margin, 60.0);
    let shape = Shape::random(rng, level, air.rate);
    let first = shape.envelope(&uplink.bits(0, 20), air.rate).len();
    let mut at = rng.below(air.dbm.len().saturating_sub(first) + 1);
    let gap = if rng.chance(0.7) {
        FRAME_GAP_S
    } else {
        rng.real(0.0, 4.0)
    };
    let first_rank = rng.pick(&[0, 0, 0, 1, 2]);
    for rank in first_rank..3 {
        let mut bits = uplink.bits(rank, rng.range(14, 20));
        let errors = if rng.chance(weather.damaged) {
            rng.range(1, 3)
        } else {
            0
        };
        for _ in 0..errors {
            damage(rng, &mut bits, 0);
        }
        let shape = Shape {
            level: shape.level + rng.real(-3.0, 3.0),
            ..shape.clone()
        };
        let envelope = shape.envelope(&bits, air.rate);
        if !rng.chance(weather.lost) {
            air.send(at, &envelope);
        }
        at += envelope.len() + (gap * f64::from(air.rate)) as usize;
    }
}

/// Loud and quiet blocks whose lengths lie around the limits that matter.
pub fn blocks(rng: &mut Rng, rate: u32, samples: usize, low: f32, high: f32) -> Vec<f32> {
    let per_second = rate as usize;
    let mut dbm = vec![];
    let mut loud = rng.chance(0.5);
    while dbm.len() < samples {
        let limit = rng.pick(&[1, 2, 8, 40, 100, 300, 301, 1000, 1450]) * per_second / 1000;
        let length = (limit + rng.below(4)).saturating_sub(1);
        let level = if loud { high } else { low };
        dbm.extend(std::iter::repeat_n(level, length.max(1)));
        loud = !loud;
    }
    dbm.truncate(samples);
    dbm
}
