//! Uplink frames as bits: every class, rank and length indicator, right and damaged.

use super::rng::Rng;
use crate::rust::frame::{CONTROL_FRAME_TYPES, FRAME_TYPES, convolve, crc16};

/// Bits after the frame type, by class.
pub const BODY_BITS: [usize; 5] = [80, 88, 112, 144, 176];
const CONTROL_CLASS: usize = 3;

/// What all repetitions of a message carry: bytes before the CRC, and the frame types.
#[derive(Clone)]
pub struct Uplink {
    pub class: usize,
    pub control: bool,
    pub bytes: Vec<u8>,
}

impl Uplink {
    pub fn new(class: usize, device: u32, counter: u16, li: u8, downlink: bool, rest: &[u8]) -> Self {
        let mut bytes = vec![
            li << 6 | u8::from(downlink) << 5 | (counter >> 8 & 0x0f) as u8,
            counter as u8,
        ];
        bytes.extend(device.to_le_bytes());
        bytes.extend(rest);
        bytes.resize(BODY_BITS[class] / 8 - 2, 0x5a);
        Self {
            class,
            control: false,
            bytes,
        }
    }

    pub fn random(rng: &mut Rng) -> Self {
        let kind = rng.below(6);
        let class = if kind == 5 { CONTROL_CLASS } else { kind };
        let rest = rng.bytes(14);
        let (device, counter) = (rng.next() as u32, rng.next() as u16);
        let mut uplink = Self::new(class, device, counter, rng.below(4) as u8, rng.chance(0.5), &rest);
        uplink.control = kind == 5;
        if rng.chance(0.1) {
            uplink.bytes[0] ^= 0x10;
        }
        uplink
    }

    /// The frame type, then the body, convolved after the first repetition.
    pub fn frame(&self, rank: usize) -> Vec<bool> {
        let frame_type = if self.control {
            CONTROL_FRAME_TYPES[rank]
        } else {
            FRAME_TYPES[rank][self.class]
        };
        let mut body: Vec<bool> = self.bytes.iter().flat_map(|&b| word(b.into(), 8)).collect();
        body.extend(word(crc16(&self.bytes), 16));
        [word(frame_type, 16), convolve(&body, rank)].concat()
    }

    /// The frame behind a preamble of so many bits.
    pub fn bits(&self, rank: usize, preamble: usize) -> Vec<bool> {
        [Self::preamble(preamble), self.frame(rank)].concat()
    }

    /// So many bits that alternate, the last one 0.
    pub fn preamble(bits: usize) -> Vec<bool> {
        (0..bits).rev().map(|i| i % 2 == 1).collect()
    }
}

/// The low n bits of a word, high first.
pub fn word(v: u16, n: u32) -> Vec<bool> {
    (0..n).rev().map(|i| v >> i & 1 == 1).collect()
}

/// One bit flipped, lost or gained at a place from `from` on.
pub fn damage(rng: &mut Rng, bits: &mut Vec<bool>, from: usize) {
    if bits.len() <= from {
        return;
    }
    let at = rng.range(from, bits.len() - 1);
    match rng.below(3) {
        0 => bits[at] = !bits[at],
        1 => drop(bits.remove(at)),
        _ => bits.insert(at, rng.chance(0.5)),
    }
}
