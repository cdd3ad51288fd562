//! Inputs for the benchmark: minutes of air with devices, and bits that can't be repaired.

use super::frame::{Uplink, damage};
use super::listen;
use super::put::Put;
use super::rng::Rng;
use super::signal::{self, Air, Shape};
use crate::rust::frame::decode_uplink_bits;

/// Records of `listen`.
pub fn records(seconds: usize) -> Vec<u8> {
    listen::stream(&mut Rng::new(1), seconds, 0.0).bytes
}

/// Raw samples, from scenes of 30 s one after the other.
pub fn air(rate: u32, seconds: usize) -> Vec<u8> {
    let mut rng = Rng::new(u64::from(rate));
    let scenes = (0..seconds / 30).map(|_| signal::scene(&mut rng, rate, 30 * rate as usize));
    scenes.flat_map(|air: Air| air.raw()).collect()
}

/// An uplink of 12 bytes.
fn twelve_bytes(rng: &mut Rng) -> Uplink {
    let rest = rng.bytes(14);
    Uplink::new(4, rng.next() as u32, rng.next() as u16, 0, false, &rest)
}

/// A frame of 12 bytes as it is sent.
pub fn right_frame(rank: usize) -> Vec<bool> {
    twelve_bytes(&mut Rng::new(3)).bits(rank, 16)
}

/// A frame of 12 bytes at the last start, with a wrong CRC that no repair makes right, then other bits up to a length.
pub fn beyond_repair_of(rank: usize, length: usize) -> Vec<bool> {
    let mut rng = Rng::new(length as u64);
    loop {
        let mut bits = twelve_bytes(&mut rng).bits(rank, 22);
        for at in [50, 90, 130, 170] {
            bits[at] = !bits[at];
        }
        let more = length - bits.len();
        bits.extend(rng.bits(more));
        if decode_uplink_bits(&bits).is_some_and(|frame| !frame.crc_ok) {
            return bits;
        }
    }
}

/// The level of `frame_samples`.
pub const FRAME_DBM: f64 = -60.0;

/// A frame of 12 bytes as a burst's samples, with some noise.
pub fn frame_samples(rate: u32) -> Vec<f32> {
    let mut rng = Rng::new(8);
    let bits = twelve_bytes(&mut rng).bits(0, 18);
    let envelope = Shape::clean(FRAME_DBM).envelope(&bits, rate);
    let pad = rate as usize / 50;
    let mut air = Air::quiet(rate, envelope.len() + 2 * pad, -100.0);
    air.send(pad, &envelope);
    air.noise(&mut rng, 0.5);
    air.samples()
}

/// Cases of `bits`: frames of the longest class with six damages: every repair is tried in vain, or nearly always.
pub fn beyond_repair(count: usize) -> Vec<u8> {
    let mut rng = Rng::new(4);
    let mut frame = || {
        let uplink = twelve_bytes(&mut rng);
        let mut bits = uplink.bits(rng.below(3), 16);
        for _ in 0..6 {
            damage(&mut rng, &mut bits, 32);
        }
        bits
    };
    let put = |put: Put, bits: Vec<bool>| put.u16(bits.len() as u16).bits(&bits);
    (0..count).map(|_| frame()).fold(Put::new(), put).0
}

/// 12 s of samples, half dB apart as raw ones are.
#[cfg(has_bench)]
pub fn samples(rate: u32) -> Vec<f32> {
    signal::from_raw(&twelve_seconds(rate).raw())
}

/// 12 s of samples of any value.
#[cfg(has_bench)]
pub fn fine_samples(rate: u32) -> Vec<f32> {
    let mut air = twelve_seconds(rate);
    air.noise(&mut Rng::new(5), 2.0);
    air.samples()
}

#[cfg(has_bench)]
fn twelve_seconds(rate: u32) -> Air {
    signal::scene(&mut Rng::new(12), rate, 12 * rate as usize)
}

/// Frequencies as the tracker reads them.
#[cfg(has_bench)]
pub fn readings(n: usize) -> Vec<f64> {
    let mut rng = Rng::new(6);
    let mut reading = || 868_130_000.0 + f64::from(rng.range(0, 150) as u16) * 122.070_312_5 / 0.93;
    (0..n).map(|_| reading()).collect()
}

/// Frequencies with hardly two alike.
pub fn fine_readings(n: usize) -> Vec<f64> {
    let mut rng = Rng::new(7);
    let mut reading = || 868_000_000.0 + f64::from(rng.range(0, 1_000_000_000) as u32) / 4096.0;
    (0..n).map(|_| reading()).collect()
}
