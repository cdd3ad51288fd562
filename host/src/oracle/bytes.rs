//! `bytes`: the Rust's `deconvolve`, bit by bit, over the bits of whole bytes and of a rest, from any state.

use super::line;
use crate::limits;
use crate::rust::frame::deconvolve_from;
use crate::text::{Input, digits, hex_bytes};

pub fn case(input: &mut Input, out: &mut String) -> Option<()> {
    let (rank, state) = (input.u8()?, input.u8()?);
    let bytes = input.bytes()?;
    let count = input.u8()?;
    let rest = input.take(count.into())?;
    line(out, decode(rank, state, bytes, rest));
    Some(())
}

fn decode(rank: u8, state: u8, bytes: &[u8], rest: &[u8]) -> Result<String, u8> {
    limits::rank(rank)?;
    let rest = limits::bits(rest)?;
    let bits: Vec<bool> = bytes.iter().flat_map(|&byte| bits_of(byte)).chain(rest).collect();
    let (decoded, state) = deconvolve_from(&bits, rank.into(), state.into());
    let (whole, rest) = decoded.as_chunks();
    let whole: Vec<u8> = whole.iter().map(byte_of).collect();
    let or_dash = |text: String| if text.is_empty() { "-".to_string() } else { text };
    Ok(format!(
        "Y {} {} {state}",
        or_dash(hex_bytes(&whole)),
        or_dash(digits(rest))
    ))
}

/// A byte's bits, the high one first.
fn bits_of(byte: u8) -> [bool; 8] {
    [7, 6, 5, 4, 3, 2, 1, 0].map(|i| byte >> i & 1 == 1)
}

fn byte_of(bits: &[bool; 8]) -> u8 {
    bits.iter().fold(0, |v, &bit| v << 1 | u8::from(bit))
}

#[cfg(test)]
mod tests {
    use super::*;
    use crate::rust::frame::deconvolve;

    /// The state is 2 × the last decoded bit + the one before it, and from state 0 it is the Rust's own `deconvolve`.
    #[test]
    fn states() {
        for rank in [1, 2] {
            for state in 0..4 {
                for byte in 0..=255 {
                    let bits = bits_of(byte);
                    let (decoded, end) = deconvolve_from(&bits, rank, state);
                    assert_eq!(end, 2 * usize::from(decoded[7]) + usize::from(decoded[6]));
                    let (first, between) = deconvolve_from(&bits[..3], rank, state);
                    let (second, last) = deconvolve_from(&bits[3..], rank, between);
                    assert_eq!(([first, second].concat(), last), (decoded.clone(), end));
                    assert!(state != 0 || decoded == deconvolve(&bits, rank));
                }
            }
        }
    }
}
