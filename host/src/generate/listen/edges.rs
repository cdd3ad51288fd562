//! Directed streams of request 04: where the first frequency comes, and where later records have none.

use super::zeros::Gap;
use super::{BASE, DRIFT_HZ, SAMPLES, quiet, record, records, tunings, zeros};
use crate::generate::band::{Band, Emission};
use crate::generate::frame::Uplink;
use crate::generate::put::Put;
use crate::generate::rng::Rng;
use crate::generate::{Case, case};
use crate::listener::{Listener, RATE, RECORD, STEP_HZ};

const QUIET_DBM: f64 = -110.0;
/// A device's first frequency, against the base
const FIRST_HZ: f64 = 2500.0;

pub fn all() -> Vec<Case> {
    let mut cases = small();
    cases.extend(few_readings());
    cases.extend(between_the_frames());
    cases.extend(about_the_closing());
    cases.extend(retune_pending());
    cases.extend([tuned_to_zero(), late(), gaps(), never()]);
    cases
}

/// Quiet records with these frequencies.
fn quiet_records(freqs: &[u32]) -> Put {
    freqs.iter().fold(Put::new(), |put, &hz| quiet(put, hz))
}

fn small() -> Vec<Case> {
    let case_of = |freqs: &[u32]| case(format!("frequencies {freqs:?}"), quiet_records(freqs));
    let mut cases = vec![
        case_of(&[0]),
        case_of(&[0, BASE]),
        case_of(&[BASE, 0]),
        case_of(&[BASE, 0, 0, BASE]),
        case_of(&[0, BASE + 1, BASE]),
        case_of(&[0, 0, BASE, 0, BASE + 1, 0, BASE]),
        case_of(&[BASE, BASE + 1, 0, 0]),
    ];
    // not 0 though three of the four bytes are
    cases.extend([1, 1 << 8, 1 << 16, 1 << 24, u32::MAX].map(|hz| case_of(&[0, hz, BASE])));
    // what follows the last whole record isn't a frequency
    let leftover = quiet_records(&[0]).raw(&[1; 15]);
    cases.push(case("a frequency in the leftover bytes", leftover));
    for count in [64, 65] {
        let tuned = tunings(count);
        let first = quiet_records(&[0; 3]).raw(&tuned.bytes);
        cases.push(case(format!("3 zeros, {}", tuned.label), first));
        let between = (0..count).fold(Put::new(), |put, i| quiet(quiet(put, BASE + i), 0));
        cases.push(case(format!("{}, a zero after each", tuned.label), between));
    }
    cases
}

fn uplink(device: u32, downlink: bool) -> Uplink {
    Uplink::new(1, device, 0x123, 0, downlink, &[0xc4])
}

/// So many ms of air.
fn air(ms: usize) -> Band {
    let mut band = Band::quiet(RATE, ms, QUIET_DBM, STEP_HZ);
    band.drift = DRIFT_HZ;
    band
}

/// Repetitions of a message from a ms on.
fn send(band: &mut Band, ms: usize, uplink: &Uplink, ranks: &[usize]) {
    band.send(ms, uplink, ranks, f64::from(BASE) + FIRST_HZ);
}

fn whole_message() -> Band {
    let mut band = air(11_000);
    send(&mut band, 900, &uplink(0x0402_0004, true), &[0, 1, 2]);
    band
}

/// The records of a band, the first so many and those in the gaps without a frequency.
fn told(band: &Band, first: usize, gaps: &[Gap]) -> Put {
    records(&mut Rng::new(4), band, 0.0, &zeros::of(band, first, gaps))
}

/// The record that brings the first line of a kind.
fn record_of(kind: char, put: &Put) -> usize {
    let (records, _) = put.0.as_chunks::<RECORD>();
    let mut listener = Listener::default();
    let brings = |r: &[u8; RECORD]| listener.hear(r).lines().any(|line| line.starts_with(kind));
    records.iter().position(brings).expect("it has such a line")
}

/// The frequency comes just before a frame's end, so that about five readings are in it.
fn few_readings() -> Vec<Case> {
    let mut band = air(3500);
    send(&mut band, 900, &uplink(0x0402_0001, false), &[0]);
    let last = band.emissions[0].to / SAMPLES;
    let case_of = |first: usize| {
        let put = told(&band, first, &[]);
        case(
            format!("a frequency {} records before a frame's end", last - first),
            put,
        )
    };
    (last - 11..=last).map(case_of).collect()
}

/// The frequency comes before, in and between the frames of a message.
fn between_the_frames() -> Vec<Case> {
    let band = whole_message();
    let of_frame = |e: &Emission| {
        let (from, to) = (e.from / SAMPLES, e.to / SAMPLES);
        [from - 1, from, from + 1, from + 38, to - 40, to - 6, to + 1, to + 120]
    };
    let case_of = |first: usize| case(format!("a message, {first} zeros first"), told(&band, first, &[]));
    band.emissions.iter().flat_map(of_frame).map(case_of).collect()
}

/// The frequency comes about when a message is written: of three ranks, and of one that has waited.
fn about_the_closing() -> Vec<Case> {
    let mut waits = air(12_500);
    send(&mut waits, 300, &uplink(0x0402_0002, false), &[0]);
    let mut cases = vec![];
    for band in [whole_message(), waits] {
        let written = record_of('M', &told(&band, usize::MAX, &[]));
        for first in written - 1..=written + 2 {
            let label = format!("written with record {written}, {first} zeros first");
            cases.push(case(label, told(&band, first, &[])));
        }
    }
    cases
}

/// Zeros from the record on that asks for a frequency, about the one that would report it, and until later.
fn retune_pending() -> Vec<Case> {
    let mut band = air(21_500);
    send(&mut band, 900, &uplink(0x0402_0003, true), &[0, 1, 2]);
    let asked = record_of('T', &told(&band, 0, &[]));
    let mut cases = vec![];
    for first in [0, 60] {
        for count in [1, 2, 10, 20, 21, 22, 40, 300, 700] {
            let label = format!("{first} zeros first, {count} where a retune is pending");
            cases.push(case(label, told(&band, first, &[Gap(asked, count)])));
        }
        let single = (asked..asked + 25).map(|i| case(format!("a zero at {i}"), told(&band, first, &[Gap(i, 1)])));
        cases.extend(single.step_by(3));
        let label = format!("{first} zeros first, all from the retune on");
        cases.push(case(label, told(&band, first, &[Gap(asked, usize::MAX)])));
        // the first tuning is that of the first frequency, also where the next one is another
        let label = format!("{first} zeros first, one frequency before the retune");
        cases.push(case(label, told(&band, first, &[Gap(first + 1, asked + 39 - first)])));
    }
    cases
}

/// A base so low that the retune is to 0 Hz, which no record can report.
fn tuned_to_zero() -> Case {
    let band = whole_message();
    let mut put = Put::new();
    for (i, raw) in band.air.raw().chunks_exact(SAMPLES).enumerate() {
        let hz = if (400..500).contains(&i) { 0 } else { 1000 };
        put = record(put, raw, 0xf00, hz);
    }
    case("a retune to 0 Hz", put)
}

/// The first frequency comes after a message was written, in the first frame of another one, which gets its frequency; then
/// back to the base.
pub fn late() -> Case {
    let mut band = air(28_600);
    send(&mut band, 300, &uplink(0x0402_0005, true), &[0, 1, 2]);
    send(&mut band, 9800, &uplink(0x0402_0006, true), &[0, 1, 2]);
    // not after whole seconds
    let first = band.emissions[3].from / SAMPLES + 38;
    case("zeros first", told(&band, first, &[]))
}

/// Later records without a frequency: single ones, in a frame, and while retunes are pending.
pub fn gaps() -> Case {
    let mut band = air(22_000);
    send(&mut band, 900, &uplink(0x0402_0007, true), &[0, 1, 2]);
    let asked = record_of('T', &told(&band, 0, &[]));
    let frame = band.emissions[1].from / SAMPLES;
    let mut gaps = vec![
        Gap(10, 1),
        Gap(60, 3),
        Gap(asked, 35),
        Gap(frame + 50, 40),
        Gap(2400, 200),
    ];
    gaps.extend((1300..2400).step_by(50).map(|i| Gap(i, 1)));
    case("zeros in between", told(&band, 0, &gaps))
}

/// No record has a frequency: a message that is written, one that waits at the end, leftover bytes.
pub fn never() -> Case {
    let mut band = air(13_000);
    send(&mut band, 300, &uplink(0x0402_0008, true), &[0, 1, 2]);
    send(&mut band, 10_500, &uplink(0x0402_0009, false), &[0]);
    case("zeros only", told(&band, usize::MAX, &[]).raw(&[3; 5]))
}
