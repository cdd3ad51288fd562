//! Which records of a stream have no frequency: none, the first ones, single ones and runs in between, all.

use super::SAMPLES;
use crate::generate::band::Band;
use crate::generate::rng::Rng;
use crate::listener::RATE;

/// So many records from one on.
#[derive(Clone, Copy)]
pub struct Gap(pub usize, pub usize);

impl Gap {
    fn has(self, record: usize) -> bool {
        record >= self.0 && record - self.0 < self.1
    }
}

pub fn none(band: &Band) -> Vec<bool> {
    of(band, 0, &[])
}

/// The first so many, and those in the gaps.
pub fn of(band: &Band, first: usize, gaps: &[Gap]) -> Vec<bool> {
    let records = band.air.dbm.len() / SAMPLES;
    let zero = |i| i < first || gaps.iter().any(|gap| gap.has(i));
    (0..records).map(zero).collect()
}

pub fn random(rng: &mut Rng, band: &Band) -> Vec<bool> {
    let records = band.air.dbm.len() / SAMPLES;
    match rng.below(10) {
        0 | 1 => none(band),
        2 | 3 => of(band, place(rng, band), &[]),
        4 | 5 => of(band, 0, &gaps(rng, band)),
        6 => of(band, records, &[]),
        _ => of(band, place(rng, band), &gaps(rng, band)),
    }
}

/// Single zeros, or runs, or both.
fn gaps(rng: &mut Rng, band: &Band) -> Vec<Gap> {
    let longest = rng.pick(&[1, 3, 30, 400]);
    let count = rng.range(1, 12);
    (0..count)
        .map(|_| Gap(place(rng, band), rng.range(1, longest)))
        .collect()
}

/// A record: anywhere, or about where a frame starts, is long enough for a retune, ends, is scanned or is given up.
fn place(rng: &mut Rng, band: &Band) -> usize {
    let records = band.air.dbm.len() / SAMPLES;
    if band.emissions.is_empty() || rng.chance(0.2) {
        return rng.range(1, records);
    }
    let e = &band.emissions[rng.below(band.emissions.len())];
    let second = RATE as usize;
    let settled = e.from + 3 * second / 10;
    let at = rng.pick(&[e.from, settled, e.to, e.to, e.to + second * 4 / 5, e.from + 10 * second]);
    (at / SAMPLES + rng.below(12)).saturating_sub(8).clamp(1, records)
}
