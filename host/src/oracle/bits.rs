//! `bits`: the C function, bits in and a record out.

use super::line;
use super::record::{self, Reception};
use crate::limits::{self, MOST_BITS};
use crate::rust::frame::decode_uplink_bits;
use crate::text::{Input, hex_bytes};

pub fn case(input: &mut Input, out: &mut String) -> Option<()> {
    let count = input.u16()? as usize;
    let bits = input.take(count)?;
    let answer = decode(bits).map(|record| match record {
        Some(record) => format!("0 {}", hex_bytes(&record)),
        None => "255".to_string(),
    });
    line(out, answer);
    Some(())
}

/// What the C function answers for a record slice that is long enough: a record, none (255), or a refusal.
pub fn decode(bits: &[u8]) -> Result<Option<[u8; record::RECORD]>, u8> {
    limits::at_most(bits.len(), MOST_BITS)?;
    let bits = limits::bits(bits)?;
    Ok(decode_uplink_bits(&bits).map(|f| record::frame(&f, Reception::default())))
}
