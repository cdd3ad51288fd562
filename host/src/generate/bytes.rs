//! Inputs of `bytes`.

use super::put::Put;
use super::rng::Rng;
use super::{Case, case, cut};
use crate::limits::MOST_BITS;

const STATES: u8 = 4;
const MOST_REST: usize = 7;
const MOST_BYTES: usize = MOST_BITS / 8;

fn of(label: impl Into<String>, rank: u8, state: u8, bytes: &[u8], rest: &[bool]) -> Case {
    let put = Put::new().u8(rank).u8(state).bytes(bytes);
    case(label, put.u8(rest.len() as u8).bits(rest))
}

pub fn directed() -> Vec<Case> {
    let mut cases = vec![];
    examples(&mut cases);
    for rank in [1, 2] {
        for state in 0..STATES {
            for byte in 0..=255 {
                cases.push(of(format!("byte {byte:02x}"), rank, state, &[byte], &[]));
            }
            rests(&mut cases, rank, state);
            lengths(&mut cases, rank, state);
        }
    }
    for rank in [3, 4, 127, 128, 254, 255] {
        for (bytes, rest) in [(&[][..], &[][..]), (&[], &[true]), (&[0xa5, 0x5a], &[false; MOST_REST])] {
            cases.push(of(format!("rank {rank}"), rank, 3, bytes, rest));
        }
    }
    cases
}

/// The examples of the client's formats.
fn examples(cases: &mut Vec<Case>) {
    cases.push(of("example 1", 1, 0, &[0x80], &[true, false, true]));
    cases.push(of("example 2", 2, 3, &[0xa5, 0x5a], &[]));
    cases.push(of("example 3", 1, 2, &[], &[true]));
    cases.push(of("example 4", 3, 0, &[1], &[]));
}

/// Nothing at all, every rest of one and of two bits, every third longer one; the longest behind a byte too.
fn rests(cases: &mut Vec<Case>, rank: u8, state: u8) {
    cases.push(of("nothing", rank, state, &[], &[]));
    for length in 1..=MOST_REST {
        let all = 1 << length;
        for value in (0..all).step_by(if length > 2 { 3 } else { 1 }) {
            let rest: Vec<bool> = (0..length).rev().map(|i| value >> i & 1 == 1).collect();
            cases.push(of(format!("a rest of {length}"), rank, state, &[], &rest));
            if length == MOST_REST {
                cases.push(of("a byte and a rest", rank, state, &[0x36 ^ value as u8], &rest));
            }
        }
    }
}

/// Lists up to 1,024 bits, with a rest and without.
fn lengths(cases: &mut Vec<Case>, rank: u8, state: u8) {
    for length in [2, 3, 20, MOST_BYTES - 1, MOST_BYTES] {
        for fill in [0x00, 0xff, 0xaa, 0x55] {
            cases.push(of(format!("{length} bytes"), rank, state, &vec![fill; length], &[]));
        }
        let rising: Vec<u8> = (0..length).map(|i| (i * 37 + 11) as u8).collect();
        let rest = [true, true, false, true, false, false, true];
        let room = MOST_REST.min(MOST_BITS - 8 * length);
        cases.push(of(
            format!("{length} bytes and a rest"),
            rank,
            state,
            &rising,
            &rest[..room],
        ));
    }
}

/// What the gate replays: the directed cases, some random ones, and one that is cut short.
pub fn sample() -> Case {
    let mut rng = Rng::new(1);
    let whole = (0..20).map(|_| random(&mut rng)).filter(|c| !c.short);
    let mut bytes: Vec<u8> = directed().into_iter().chain(whole).flat_map(|c| c.bytes).collect();
    bytes.extend(cut(&mut rng, 0, of("cut", 1, 2, &[0xa5; 9], &[true; MOST_REST])).bytes);
    Case {
        label: "directed cases, then random ones".to_string(),
        bytes,
        short: true,
    }
}

pub fn random(rng: &mut Rng) -> Case {
    let rank = if rng.chance(0.05) {
        rng.range(3, 255) as u8
    } else {
        rng.range(1, 2) as u8
    };
    let length = if rng.chance(0.2) {
        rng.below(MOST_BYTES + 1)
    } else {
        rng.below(8)
    };
    let rest = rng.below(MOST_REST.min(MOST_BITS - 8 * length) + 1);
    let state = rng.below(STATES.into()) as u8;
    let (bytes, bits) = (rng.bytes(length), rng.bits(rest));
    let whole = of(format!("{length} bytes and {rest} bits"), rank, state, &bytes, &bits);
    if rng.chance(0.01) { cut(rng, 0, whole) } else { whole }
}

#[cfg(test)]
mod tests {
    use super::*;
    use crate::oracle::lines;

    #[test]
    fn lines_of_the_examples() {
        let mut cases = vec![];
        examples(&mut cases);
        let input: Vec<u8> = cases.into_iter().flat_map(|c| c.bytes).collect();
        let expected = "Y db 100 0\nY 7bb7 - 3\nY - 0 1\nR 9\n";
        assert_eq!(lines("bytes", &input).as_deref(), Some(expected));
    }
}
