//! `burstbits`: burst_bits, its first 1,024 bits and their full count.

use super::line;
use crate::limits::{self, MOST_BITS};
use crate::rust::demod::burst_bits;
use crate::text::{Input, digits, hex32, hex64};

pub fn case(input: &mut Input, out: &mut String) -> Option<()> {
    let rate = input.u32()?;
    let seg = input.f32s()?;
    line(out, answer(&seg, rate));
    Some(())
}

fn answer(seg: &[f32], rate: u32) -> Result<String, u8> {
    limits::rate(rate)?;
    limits::sample_count(seg.len(), rate)?;
    limits::samples(seg)?;
    Ok(burst_bits(seg, rate).map_or("none".to_string(), |b| {
        format!(
            "{} {} {} {} {} {}",
            b.bits.len(),
            b.dips,
            b.clock_error_ppm,
            hex64(b.period_samples),
            hex32(b.level_dbm),
            digits(&b.bits[..b.bits.len().min(MOST_BITS)])
        )
    }))
}
