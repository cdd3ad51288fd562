//! `dips`: find_dips.

use super::line;
use crate::limits;
use crate::rust::demod::{BIT_RATE, find_dips};
use crate::text::{Input, hex64};

pub fn case(input: &mut Input, out: &mut String) -> Option<()> {
    let rate = input.u32()?;
    let level = input.f64()?;
    let seg = input.f32s()?;
    line(out, answer(&seg, rate, level));
    Some(())
}

fn answer(seg: &[f32], rate: u32, level: f64) -> Result<String, u8> {
    limits::rate(rate)?;
    limits::sample_count(seg.len(), rate)?;
    limits::samples(seg)?;
    limits::number(!level.is_nan())?;
    let nominal = f64::from(rate) / f64::from(BIT_RATE);
    let dips = find_dips(seg, nominal, level);
    let mut text = format!("D {}", dips.len());
    for d in dips {
        text += &format!(" {}", hex64(d));
    }
    Ok(text)
}
