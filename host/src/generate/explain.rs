//! crates/explain/stdin: a recording with a burst of each kind that `explain` tells apart, as raw bytes at 1,000 samples a second.

use super::frame::Uplink;
use super::rng::Rng;
use super::signal::{Air, Shape};

const RATE: u32 = 1000;
const SEED: u64 = 30;
const SAMPLES: usize = 42_000;
const BACKGROUND_DBM: f64 = -118.0;
const NOISE_DB: f64 = 2.0;
/// The floor of this noise, a fifth up, as the first scans and all later ones find it.
const FLOOR_DBM: f64 = -118.5;
const ABOVE_DB: f64 = 15.0;
const LEVEL_DBM: f64 = -86.0;
const PREAMBLE: usize = 20;
/// Bits of preamble and frame type: the body starts behind them.
const BODY: usize = PREAMBLE + 16;
/// From the start of a repetition without payload to the next, in samples.
const REPETITION: usize = 3_550;

/// A level with dips of 24 dB at places given in bits.
fn dipped(places: &[f64], bits: f64) -> Vec<f64> {
    let shape = Shape::clean(LEVEL_DBM);
    (0..(bits * 10.0) as usize)
        .map(|i| {
            let x = i as f64 / 10.0;
            let deepest = |deep: f64, &place: &f64| {
                let off = (x - place).abs() / shape.width;
                deep.max(shape.depth * (1.0 - off * off))
            };
            LEVEL_DBM - places.iter().fold(0.0, deepest)
        })
        .collect()
}

/// A frame's envelope, 0.2 % slow.
fn sent(bits: &[bool]) -> Vec<f64> {
    let shape = Shape {
        clock: 1.002,
        ramp: (6.0, 10.0),
        ..Shape::clean(LEVEL_DBM)
    };
    shape.envelope(bits, RATE)
}

/// A dip more, half a bit past a boundary.
fn disturbed(mut envelope: Vec<f64>) -> Vec<f64> {
    envelope[387] = LEVEL_DBM - 20.0;
    envelope
}

fn turned(mut bits: Vec<bool>, places: &[usize]) -> Vec<bool> {
    for &place in places {
        bits[BODY + place] = !bits[BODY + place];
    }
    bits
}

/// Where a burst starts, and what it is.
fn bursts() -> Vec<(usize, Vec<f64>)> {
    let uplink = Uplink::new(0, 0x00c0_ffee, 291, 0, false, &[0xaa, 0x55]);
    let other = Uplink::new(2, 0x0000_0bad, 7, 0, false, &[1, 2, 3, 4, 0x12, 0x34]);
    let late = Uplink::new(0, 0x0001_0002, 12, 3, false, &[0x77, 0x66]);
    let right = |rank| sent(&uplink.bits(rank, PREAMBLE));
    vec![
        // too short
        (2_000, vec![LEVEL_DBM; 200]),
        // two pieces with 60 ms between them
        (2_900, vec![LEVEL_DBM; 150]),
        (3_110, vec![LEVEL_DBM; 150]),
        // under the threshold by 0.5 dB
        (4_000, vec![FLOOR_DBM + ABOVE_DB - 0.5; 1_200]),
        // seven dips
        (6_000, dipped(&[1.0, 3.0, 5.0, 7.0, 9.0, 11.0, 13.0], 60.0)),
        // nine dips, three of them half a bit off the grid of the others
        (8_000, dipped(&[1.0, 3.0, 5.5, 8.0, 10.0, 12.5, 15.0, 17.0, 19.5], 60.0)),
        // no frame type
        (10_000, sent(&Uplink::preamble(100))),
        // a bit turned over
        (12_500, sent(&turned(other.bits(0, PREAMBLE), &[30]))),
        // three bits turned over
        (15_500, sent(&turned(uplink.bits(0, PREAMBLE), &[12, 37, 58]))),
        // three repetitions
        (18_000, right(0)),
        (18_000 + REPETITION, right(1)),
        (18_000 + 2 * REPETITION, right(2)),
        // a repetition alone, whose message still waits at the end
        (38_000, disturbed(sent(&late.bits(1, PREAMBLE)))),
    ]
}

pub fn recording() -> Vec<u8> {
    let mut air = Air::quiet(RATE, SAMPLES, BACKGROUND_DBM);
    air.noise(&mut Rng::new(SEED), NOISE_DB);
    for (at, envelope) in bursts() {
        air.send(at, &envelope);
    }
    air.raw()
}
