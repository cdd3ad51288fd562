//! `capture`: decode_capture.

use super::{line, record};
use crate::limits;
use crate::rust::demod::decode_capture;
use crate::text::{Input, hex_bytes};

pub fn case(input: &mut Input, out: &mut String) -> Option<()> {
    let rate = input.u32()?;
    let t0 = input.f64()?;
    let measured = input.u8()? == 1;
    let floor = input.f32()?;
    let dbm = input.f32s()?;
    line(out, answer(&dbm, rate, t0, (!measured).then_some(floor)));
    Some(())
}

fn answer(dbm: &[f32], rate: u32, t0: f64, floor: Option<f32>) -> Result<String, u8> {
    limits::rate(rate)?;
    limits::sample_count(dbm.len(), rate)?;
    limits::samples(dbm)?;
    limits::time(t0)?;
    floor.map_or(Ok(()), limits::floor)?;
    let frames = decode_capture(dbm, rate, t0, floor);
    let mut text = format!("C {}", frames.len());
    for d in &frames {
        text += "\n";
        text += &hex_bytes(&record::received(d));
    }
    Ok(text)
}
