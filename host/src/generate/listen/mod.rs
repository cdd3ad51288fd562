//! Inputs of `listen`: records of eight raw samples, a register reading and the frequency, which is 0 where it isn't known (request 04).

mod edges;
mod zeros;

use super::band::{Band, Receiver};
use super::put::Put;
use super::rng::Rng;
use super::{Case, case, signal};
use crate::listener::{RATE, RECORD, STEP_HZ, freq};

const BASE: u32 = 868_130_000;
/// Samples of a record.
const SAMPLES: usize = 8;
/// A frame rises so much a sample that its readings differ by about a step of the register.
const DRIFT_HZ: f64 = 16.0;

/// Row 0 has a frequency in every record, row 1 hasn't.
pub const ROWS: u8 = 2;

pub fn row(case: &Case) -> u8 {
    let (records, _) = case.bytes.as_chunks::<RECORD>();
    records.iter().any(|r| freq(r).is_none()).into()
}

fn record(put: Put, raw: &[u8], cfo: u16, hz: u32) -> Put {
    put.raw(raw).u16(cfo).u32(hz).u16(0xabcd)
}

fn quiet(put: Put, hz: u32) -> Put {
    record(put, &[200; SAMPLES], 0, hz)
}

fn no_records() -> Case {
    case("no records", Put::new())
}

fn one_record() -> Case {
    case("01's example", quiet(Put::new(), BASE))
}

/// Each record reports another frequency, and the last one's again.
fn tunings(count: u32) -> Case {
    let put = (0..count).fold(Put::new(), |put, i| quiet(put, BASE + i));
    case(format!("{count} tunings"), quiet(put, BASE + count - 1))
}

pub fn directed() -> Vec<Case> {
    let mut cases = vec![
        no_records(),
        one_record(),
        case("leftover bytes alone", Put::new().raw(&[1; 15])),
        case("leftover bytes", quiet(quiet(Put::new(), BASE), BASE).raw(&[1; 7])),
        case("frequency 0", quiet(quiet(Put::new(), 0), 0)),
    ];
    cases.extend([64, 65].map(tunings));
    cases.push(stream(&mut Rng::new(3), 75, 0.0));
    cases.extend(edges::all());
    cases
}

pub fn random(rng: &mut Rng) -> Case {
    let seconds = rng.range(5, 60);
    let stubborn = rng.pick(&[0.0, 0.0, 0.0, 0.002, 0.02]);
    let mut band = band(rng, seconds);
    band.drift = rng.pick(&[0.0, 4.0, DRIFT_HZ, -DRIFT_HZ]);
    let zeros = zeros::random(rng, &band);
    heard(rng, &band, stubborn, &zeros)
}

/// Devices on a band and a receiver that tunes where it is told; a stubborn one tunes elsewhere at times.
pub fn stream(rng: &mut Rng, seconds: usize, stubborn: f64) -> Case {
    let band = band(rng, seconds);
    heard(rng, &band, stubborn, &zeros::none(&band))
}

fn band(rng: &mut Rng, seconds: usize) -> Band {
    Band::random(rng, RATE, seconds * RATE as usize, BASE, STEP_HZ)
}

fn heard(rng: &mut Rng, band: &Band, stubborn: f64, zeros: &[bool]) -> Case {
    let put = records(rng, band, stubborn, zeros);
    let leftover = rng.below(16);
    let count = zeros.iter().filter(|&&zero| zero).count();
    case(format!("a stream, {count} zeros"), put.raw(&vec![9; leftover]))
}

/// What the receiver writes of a band, without its frequency in the records that `zeros` has.
fn records(rng: &mut Rng, band: &Band, stubborn: f64, zeros: &[bool]) -> Put {
    let mut receiver = Receiver::new(RATE, BASE, STEP_HZ);
    let mut put = Put::new();
    for (i, (raw, &zero)) in band.air.raw().chunks_exact(SAMPLES).zip(zeros).enumerate() {
        receiver.settle();
        if rng.chance(stubborn) {
            receiver.lo = BASE + rng.below(4) as u32;
        }
        let cfo = band.register(rng, SAMPLES * i, receiver.lo);
        put = record(put, raw, cfo, if zero { 0 } else { receiver.lo });
        receiver.hear(rng, !zero, &signal::from_raw(raw), &[cfo]);
    }
    put
}

/// The runs that the gate replays. The stream's messages are whole and with ranks missing, with and without a payload and a frequency; it ends inside a record.
pub fn runs() -> Vec<(&'static str, Case)> {
    vec![
        ("listen", stream(&mut Rng::new(6), 75, 0.0)),
        ("listen_one", one_record()),
        ("listen_nothing", no_records()),
        ("listen_full", tunings(65)),
        ("listen_late", edges::late()),
        ("listen_gaps", edges::gaps()),
        ("listen_never", edges::never()),
    ]
}
