//! `burst`: decode_burst.

use super::line;
use super::record::{self, Reception};
use crate::limits;
use crate::rust::demod::{Burst, decode_burst};
use crate::text::{Input, hex_bytes, hex32, hex64};

pub fn case(input: &mut Input, out: &mut String) -> Option<()> {
    let rate = input.u32()?;
    let t0 = input.f64()?;
    let (start, end) = (input.u64()?, input.u64()?);
    let (peak_dbm, floor_dbm) = (input.f32()?, input.f32()?);
    let dbm = input.f32s()?;
    let burst = Burst {
        start: start as usize,
        end: end as usize,
        peak_dbm,
        floor_dbm,
    };
    line(out, answer(&dbm, rate, &burst, t0));
    Some(())
}

fn answer(dbm: &[f32], rate: u32, burst: &Burst, t0: f64) -> Result<String, u8> {
    limits::rate(rate)?;
    limits::sample_count(dbm.len(), rate)?;
    limits::samples(dbm)?;
    limits::burst_index(burst.start as u64)?;
    limits::burst_index(burst.end as u64)?;
    limits::time(t0)?;
    limits::floor(burst.floor_dbm)?;
    limits::number(!burst.peak_dbm.is_nan())?;
    Ok(decode_burst(dbm, rate, burst, t0).map_or("none".to_string(), |d| {
        let reception = Reception {
            depth: d.segment.byte(),
            clock_error_ppm: d.clock_error_ppm,
            ..Reception::default()
        };
        let record = hex_bytes(&record::frame(&d.frame, reception));
        format!("{record} {} {} {}", hex64(d.time), hex64(d.end), hex32(d.rssi))
    }))
}
