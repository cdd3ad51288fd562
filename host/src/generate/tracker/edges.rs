//! Edges of the tracker: readings, gaps, tunings, retention and the frequency of frame 1.

use super::{BASE, Calls, LOUD, QUIET};
use crate::generate::Case;
use crate::generate::band::STEP_HZ;
use crate::generate::signal::RATES;

/// A step that makes a reading ten times as many Hz as it has units.
const TENS: f64 = 9.3;

pub fn directed() -> Vec<Case> {
    let mut cases = vec![];
    readings(&mut cases);
    gaps(&mut cases);
    tunings(&mut cases);
    retention(&mut cases);
    frames(&mut cases);
    frame_1(&mut cases);
    refused(&mut cases);
    super::given::directed(&mut cases);
    cases
}

/// Four and five readings after the first tenth of a second; a frame just settled, and not yet.
fn readings(cases: &mut Vec<Case>) {
    for n in [16, 17, 18, 19] {
        let calls = Calls::new(1000, BASE, STEP_HZ).tuned(BASE).level(100, QUIET).next();
        let calls = calls.level(300, LOUD).readings(n, -75).next().next().freq();
        cases.push(calls.case(format!("{n} readings")));
    }
    for n in [299, 300, 301] {
        let calls = Calls::new(1000, BASE, STEP_HZ).level(100, QUIET).level(n, LOUD);
        cases.push(calls.readings(40, 20).next().case(format!("{n} into a frame")));
    }
    let zero = Calls::new(1000, BASE, STEP_HZ)
        .tuned(BASE)
        .level(100, QUIET)
        .level(300, LOUD);
    let zero = zero.readings(30, 0).next().level(8, LOUD).readings(30, 400).next();
    cases.push(zero.case("no retune where the target is the frequency"));
    let mixed: Vec<u16> = (0..37).map(|i| (i * 31 % 64) as u16).collect();
    for n in 30..37 {
        let calls = Calls::new(1000, BASE, STEP_HZ)
            .tuned(BASE)
            .level(100, QUIET)
            .level(320, LOUD);
        cases.push(calls.cfo(&mixed[..n]).next().case(format!("medians of {n}")));
    }
    for units in [1, -1, 3, -3, 2047, -2048] {
        let calls = Calls::new(1000, 1000, 0.465)
            .tuned(1000)
            .level(100, QUIET)
            .level(300, LOUD);
        cases.push(calls.readings(30, units).next().case(format!("halves of Hz: {units}")));
        let calls = Calls::new(1000, 5, 10_000.0)
            .tuned(5)
            .level(100, QUIET)
            .level(300, LOUD);
        cases.push(calls.readings(30, units).next().case(format!("below 0 Hz: {units}")));
        let top = u32::MAX - 5;
        let calls = Calls::new(1000, top, 10_000.0)
            .tuned(top)
            .level(100, QUIET)
            .level(300, LOUD);
        cases.push(calls.readings(30, units).next().case(format!("above 2^32 Hz: {units}")));
    }
}

/// Gaps around a tenth of a second, and around 10 s after a retune, at every rate; levels around 15 dB; a loud first sample.
fn gaps(cases: &mut Vec<Case>) {
    for rate in RATES.into_iter().chain([203, 205, 207, 995]) {
        let r = rate as usize;
        for quiet in [r / 10 - 1, r / 10, r / 10 + 1] {
            let calls = Calls::new(rate, BASE, STEP_HZ).level(5, QUIET).level(r / 2, LOUD);
            let calls = calls
                .readings(r / 16, 9)
                .level(quiet, QUIET)
                .next()
                .level(r / 2, LOUD)
                .readings(40, 9)
                .next();
            cases.push(calls.case(format!("{quiet} quiet at {rate}")));
        }
        for quiet in [10 * r - 1, 10 * r, 10 * r + 1] {
            let calls = Calls::new(rate, BASE, STEP_HZ)
                .tuned(BASE)
                .tuned(BASE + 50_000)
                .level(5, QUIET);
            let calls = calls
                .level(r / 2, LOUD)
                .readings(r / 16, 9)
                .next()
                .tuned(BASE + 51_181)
                .level(quiet - 1, QUIET)
                .next()
                .level(1, QUIET)
                .next();
            let calls = calls.tuned(BASE + 1).next().tuned(BASE).next().level(1, LOUD).next();
            cases.push(calls.case(format!("{quiet} quiet after a message at {rate}")));
        }
    }
    for level in [-95.0, -94.99999, -95.00001] {
        let calls = Calls::new(1000, BASE, STEP_HZ)
            .level(1, QUIET)
            .level(3, level)
            .level(1, QUIET);
        cases.push(calls.case(format!("a sample at {level}")));
    }
    let loud = Calls::new(1000, BASE, STEP_HZ)
        .level(2000, LOUD)
        .level(4000, QUIET)
        .level(400, LOUD);
    cases.push(loud.readings(50, 5).next().case("a stream that starts loud"));
    let empty = Calls::new(1000, BASE, STEP_HZ)
        .samples(&[])
        .cfo(&[])
        .next()
        .freq()
        .readings(1, 1);
    cases.push(empty.level(3, -0.0).level(3, 0.0).case("no samples, then zeros"));
}

fn tunings(cases: &mut Vec<Case>) {
    for settle in [299, 300, 301] {
        let calls = Calls::new(1000, BASE, STEP_HZ)
            .tuned(BASE)
            .level(400, QUIET)
            .tuned(BASE + 7);
        let calls = calls.level(settle, QUIET).level(8, QUIET).readings(3, 1);
        cases.push(calls.case(format!("a reading {settle} after a retune")));
    }
    for rate in [200, 201, 203, 3999] {
        let calls = Calls::new(rate, BASE, STEP_HZ)
            .tuned(BASE)
            .level(5, QUIET)
            .tuned(BASE + 7);
        let calls = calls
            .level(3 * rate as usize / 10 - 2, QUIET)
            .level(1, QUIET)
            .readings(1, 1);
        let calls = calls.level(1, QUIET).readings(1, 2).level(1, QUIET).readings(1, 3);
        cases.push(calls.case(format!("settling at {rate}")));
    }
    let once = Calls::new(1000, BASE, STEP_HZ)
        .tuned(BASE + 7)
        .level(8, QUIET)
        .readings(1, 1);
    cases.push(once.tuned(BASE + 7).freq().case("a first tuning settles at once"));
    let mut many = Calls::new(1000, BASE, STEP_HZ);
    for i in 0..66 {
        many = many.tuned(BASE + i);
    }
    cases.push(
        many.tuned(BASE + 63)
            .freq()
            .level(8, QUIET)
            .case("more tunings than fit"),
    );
    let mut minute = Calls::new(200, BASE, STEP_HZ);
    for i in 0..65 {
        minute = minute.tuned(BASE + i).level(180, QUIET);
    }
    for i in 65..70 {
        minute = minute.level(180, QUIET).tuned(BASE + i).freq();
    }
    cases.push(
        minute
            .level(2400, QUIET)
            .tuned(BASE)
            .case("65 tunings in 60 s, and some that are forgotten"),
    );
    let mut full = Calls::new(1000, BASE, STEP_HZ).level(8, QUIET);
    for n in [4096, 3904, 0, 1, 4096, 4097] {
        full = full.readings(n, 5);
    }
    cases.push(full.case("more readings than fit"));
    let passed = Calls::new(1000, BASE, STEP_HZ)
        .tuned(BASE)
        .level(100, QUIET)
        .level(300, LOUD)
        .readings(30, 40);
    let passed = passed
        .next()
        .tuned(BASE)
        .next()
        .tuned(BASE + 5251)
        .tuned(BASE + 5250)
        .next();
    cases.push(
        passed
            .level(500, LOUD)
            .readings(30, 1)
            .next()
            .case("a request waits for its frequency"),
    );
}

/// Readings and tunings around 60 s old.
fn retention(cases: &mut Vec<Case>) {
    for rate in [200, 201] {
        let r = rate as usize;
        let mut calls = Calls::new(rate, BASE, STEP_HZ)
            .tuned(BASE)
            .level(16, QUIET)
            .readings(2, 1)
            .tuned(BASE + 1);
        for _ in 0..5 {
            calls = calls.level(12 * r - 10, QUIET).readings(1, 2);
        }
        calls = calls.tuned(BASE + 2).level(34, QUIET);
        for _ in 0..20 {
            calls = calls.level(1, QUIET);
        }
        for _ in 0..6 {
            calls = calls.level(12 * r, QUIET).readings(1, 3);
        }
        cases.push(calls.freq().case(format!("60 s at {rate}")));
    }
}

/// The tracker after a stretch of readings: value by value, 25 readings of 8 samples each.
fn stretch(rate: u32, values: &[(u32, i32)]) -> Calls {
    let mut calls = Calls::new(rate, BASE, TENS);
    for &(lo, value) in values {
        calls = calls.tuned(lo).level(200, LOUD).readings(25, value);
    }
    calls
}

fn frames(cases: &mut Vec<Case>) {
    let base = stretch(
        1000,
        &[(BASE, 10), (BASE, 20), (BASE, 30), (BASE + 500, 40), (BASE + 500, 50)],
    );
    let mut calls = base;
    for (time, end) in [
        (0.0, 0.3),
        (0.0, 0.332),
        (0.0, 0.333),
        (0.0, 0.340),
        (0.0, 0.341),
        (-0.1, 0.5),
        (-0.0005, 0.3385),
        (0.0005, 0.3395),
        (0.0, 0.7),
        (0.0, 1.0),
        (0.2, 0.95),
        (0.6, 1.2),
        (-1e9, 1e9),
        (1e9, -1e9),
        (0.9, 0.1),
        (5.0, 6.0),
        (f64::NAN, 1.0),
        (0.0, f64::INFINITY),
        (0.0, 1.000_000_001e9),
    ] {
        calls = calls
            .frame_frequency(0, time, end)
            .frame_frequency(2, time, end)
            .frame_frequency(3, time, end);
    }
    cases.push(calls.case("frames of a stretch"));
    // a reading at each sample, and rates whose 0.3 s end in half a sample
    for rate in [205, 215, 1005, 3995] {
        let mut calls = Calls::new(rate, BASE, TENS);
        for i in 0..120 {
            calls = calls.level(1, QUIET).readings(1, i);
        }
        for i in 0..100 {
            let time = f64::from(i) / f64::from(rate) - 0.3;
            let end = f64::from(i + 20) / f64::from(rate);
            calls = calls
                .frame_frequency(1, time, end)
                .frame_frequency(1, time + 0.3, end + 0.3);
        }
        cases.push(calls.case(format!("a reading at each sample at {rate}")));
    }
}

/// Frames 2 and 3 around 9, 12 and 15 kHz apart; offsets around 10 kHz; a retune between them.
fn frame_1(cases: &mut Vec<Case>) {
    let spans = [(0, -0.3, 0.2), (1, 0.1, 0.6), (2, 0.5, 1.0)];
    let orders = [[0, 1, 2], [2, 1, 0], [1, 2, 0]];
    for (second, third) in [
        (600, -600),
        (450, -450),
        (451, -450),
        (750, -750),
        (750, -749),
        (-600, 600),
        (1600, 400),
        (1601, 400),
        (1600, 401),
        (-400, -1600),
        (-401, -1601),
    ] {
        for first in [7, 1000, 1001, -1000, -1001] {
            let calls = stretch(
                1000,
                &[
                    (BASE, first),
                    (BASE, second),
                    (BASE, second),
                    (BASE, third),
                    (BASE, third),
                ],
            );
            let mut calls = calls
                .frame1(true, &spans)
                .frame1(false, &spans)
                .frame1(true, &spans[..2]);
            for order in orders {
                calls = calls.frame1(true, &order.map(|i| spans[i]));
            }
            cases.push(calls.case(format!("frames at {first}, {second} and {third} tens of Hz")));
        }
    }
    let retuned = stretch(
        1000,
        &[(BASE, 7), (BASE, 600), (BASE, 600), (BASE + 9, -600), (BASE + 9, -600)],
    );
    cases.push(
        retuned
            .frame1(true, &spans)
            .frame1(true, &[])
            .case("a retune between frames 2 and 3"),
    );
    let wrong = stretch(1000, &[(BASE, 7)]).frame1(true, &[(0, 0.0, 0.2), (3, 0.0, 0.2)]);
    let wrong = wrong
        .frame1(false, &[(0, f64::NAN, 0.2)])
        .frame1(false, &[(0, 0.0, 2e9)]);
    cases.push(
        wrong
            .frame1(false, &[(0, -0.3, 0.2), (0, 0.0, 0.2)])
            .case("spans that are refused"),
    );
}

fn refused(cases: &mut Vec<Case>) {
    let everything = |calls: Calls| {
        let calls = calls.tuned(BASE).samples(&[f32::NAN]).cfo(&[0; 4097]).next();
        calls.frame_frequency(9, 0.0, 1.0).frame1(true, &[]).freq()
    };
    for (rate, step) in [
        (199, 1.0),
        (4001, f64::NAN),
        (0, 0.0),
        (1000, 0.0),
        (1000, -1.0),
        (1000, 10_000.1),
        (1000, f64::NAN),
    ] {
        let calls = everything(Calls::new(rate, BASE, step));
        cases.push(calls.case(format!("rate {rate}, step {step}")));
    }
    cases.push(everything(Calls::new(1000, BASE, 10_000.0)).case("step 10,000"));
    cases.push(everything(Calls::new(1000, BASE, 5e-324)).case("the least step"));
    let calls = Calls::new(200, BASE, STEP_HZ)
        .level(9, QUIET)
        .level(2401, f32::NAN)
        .level(2400, QUIET);
    let calls = calls
        .samples(&[QUIET, f32::INFINITY])
        .samples(&[100.5])
        .samples(&[-200.5])
        .samples(&[-200.0, 100.0]);
    cases.push(calls.freq().case("samples that are refused"));
}
