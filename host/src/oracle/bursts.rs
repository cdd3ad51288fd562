//! `bursts`: the noise floor and find_bursts.

use super::line;
use crate::limits::{self, MOST_SAMPLES};
use crate::rust::demod::{BurstOptions, find_bursts, noise_floor};
use crate::text::{Input, hex32};

pub fn case(input: &mut Input, out: &mut String) -> Option<()> {
    let rate = input.u32()?;
    let options = BurstOptions {
        above_db: input.f64()?,
        min_ms: input.f64()?,
        gap_ms: input.f64()?,
    };
    let measured = input.u8()? == 1;
    let given = input.f32()?;
    let dbm = input.f32s()?;
    line(out, answer(&dbm, rate, &options, (!measured).then_some(given)));
    Some(())
}

/// The noise floor's refusals, as its call takes them: it has no rate.
pub fn checked_noise_floor(dbm: &[f32]) -> Result<f32, u8> {
    limits::at_most(dbm.len(), MOST_SAMPLES)?;
    limits::samples(dbm)?;
    Ok(noise_floor(dbm))
}

/// The noise floor is asked first, so its refusal comes before those of find_bursts.
fn answer(dbm: &[f32], rate: u32, options: &BurstOptions, given: Option<f32>) -> Result<String, u8> {
    let noise = checked_noise_floor(dbm)?;
    let floor = given.unwrap_or(noise);
    limits::rate(rate)?;
    limits::sample_count(dbm.len(), rate)?;
    limits::above(options.above_db)?;
    limits::milliseconds(options.min_ms)?;
    limits::milliseconds(options.gap_ms)?;
    limits::floor(floor)?;
    let bursts = find_bursts(dbm, rate, options, floor);
    let mut text = format!("B {} {}", bursts.len(), hex32(noise));
    for b in bursts {
        let (peak, floor) = (hex32(b.peak_dbm), hex32(b.floor_dbm));
        text += &format!("\n{} {} {peak} {floor}", b.start, b.end);
    }
    Ok(text)
}
