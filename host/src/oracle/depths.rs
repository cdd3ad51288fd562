//! `depths`: the dips of find_dips with their depths, and the median depth of burst_bits (request 05), from 02's text; the Rust has none.

use super::line;
use crate::depth;
use crate::limits::{self, SCRATCH64};
use crate::text::{Input, hex64};

pub fn case(input: &mut Input, out: &mut String) -> Option<()> {
    let answer = match input.u8()? {
        0 => {
            let (rate, level) = (input.u32()?, input.f64()?);
            dips(&input.f32s()?, rate, level)
        }
        1 => {
            let (rate, places) = (input.u32()?, input.u16()?);
            median(&input.f32s()?, rate, places.into())
        }
        call => panic!("depths has no call {call}"),
    };
    line(out, answer);
    Some(())
}

fn dips(seg: &[f32], rate: u32, level: f64) -> Result<String, u8> {
    limits::rate(rate)?;
    limits::sample_count(seg.len(), rate)?;
    limits::samples(seg)?;
    limits::number(!level.is_nan())?;
    let dips = depth::dips(seg, rate, level);
    let mut text = format!("D {}", dips.len());
    for dip in dips {
        text += &format!(" {} {}", hex64(dip.at), hex64(dip.depth));
    }
    Ok(text)
}

/// "refusal 2 now wants 6,000 f64 of scratch"
fn median(seg: &[f32], rate: u32, places: usize) -> Result<String, u8> {
    limits::rate(rate)?;
    limits::lent(places, SCRATCH64)?;
    limits::sample_count(seg.len(), rate)?;
    limits::samples(seg)?;
    Ok(depth::of_burst(seg, rate).map_or("none".to_string(), |median| {
        format!("B {} {}", median.points, hex64(median.depth))
    }))
}
