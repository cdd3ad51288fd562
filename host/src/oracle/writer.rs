//! `writer`: the Rust's `encode_uplink` for each rank behind request 01's preamble, and the refusals that request 01 names.

use super::line;
use crate::limits;
use crate::rust::frame::{DeviceId, UplinkFields, encode_uplink, uplink_header};
use crate::text::{Input, hex_bytes};

/// Places of a repetition, and bits of its preamble; the Rust's preamble has 16.
const PLACES: usize = 212;
const PREAMBLE: usize = 20;
const RUST_PREAMBLE: usize = 16;
const MOST_PAYLOAD: usize = 12;
const HIGHEST_COUNTER: u16 = 4095;

pub fn case(input: &mut Input, out: &mut String) -> Option<()> {
    let device_id = DeviceId(input.u32()?);
    let counter = input.u16()?;
    let bit = [None, Some(false), Some(true)][usize::from(input.u8()?)];
    let downlink = input.u8()? != 0;
    let payload = input.bytes()?;
    let auth = input.bytes()?;
    let (length, fill) = (input.u16()?, input.u8()?);
    let fields = UplinkFields {
        device_id,
        counter,
        payload,
        bit,
        downlink,
    };
    let mut slice = vec![fill; length.into()];
    let answer = write(&fields, auth, &mut slice);
    line(
        out,
        answer.map(|counts| format!("W {} {} {}", counts[0], counts[1], counts[2])),
    );
    let text = if slice.is_empty() {
        "-".to_string()
    } else {
        hex_bytes(&slice)
    };
    line(out, Ok(text));
    Some(())
}

/// How many bits each repetition has, or the refusal; the slice is written to only where nothing is refused.
fn write(fields: &UplinkFields, auth: &[u8], slice: &mut [u8]) -> Result<[usize; 3], u8> {
    limits::lent(slice.len(), 3 * PLACES)?;
    let repetitions = repetitions(fields, auth)?;
    for (rank, bits) in repetitions.iter().enumerate() {
        let bytes: Vec<u8> = bits.iter().map(|&bit| bit.into()).collect();
        slice[PLACES * rank..][..bytes.len()].copy_from_slice(&bytes);
    }
    Ok(repetitions.map(|bits| bits.len()))
}

/// The bits of each repetition, by rank, or the refusal.
pub fn repetitions(fields: &UplinkFields, auth: &[u8]) -> Result<[Vec<bool>; 3], u8> {
    limits::uplink(fields.payload.len() <= MOST_PAYLOAD)?;
    limits::uplink(fields.bit.is_none() || fields.payload.is_empty())?;
    limits::uplink(fields.counter <= HIGHEST_COUNTER)?;
    limits::uplink(auth.len() == uplink_header(fields).auth_size)?;
    Ok([0, 1, 2].map(|rank| {
        let coded = encode_uplink(fields, rank, auth, false);
        let preamble = (0..PREAMBLE).map(|i| i % 2 == 0);
        preamble.chain(coded[RUST_PREAMBLE..].iter().copied()).collect()
    }))
}
