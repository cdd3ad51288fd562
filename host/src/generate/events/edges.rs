//! Edges of the receiver: scans, starts, merging, closing and refused calls.

use super::{Calls, envelope, two_bytes};
use crate::generate::Case;
use crate::generate::signal::Air;

/// Frames of the first device's message: (rank, first sample).
fn frames(rate: u32, samples: usize, frames: &[(usize, usize)]) -> Air {
    let mut air = Air::quiet(rate, samples, -110.0);
    for &(rank, at) in frames {
        air.send(at, &envelope(&two_bytes(1), rank, rate, -60.0));
    }
    air
}

pub fn directed() -> Vec<Case> {
    let mut cases = vec![];
    scans(&mut cases);
    starts(&mut cases);
    merges(&mut cases);
    closings(&mut cases);
    sinking_floor(&mut cases);
    super::depths::directed(&mut cases);
    refused(&mut cases);
    super::given::directed(&mut cases);
    cases
}

fn scans(cases: &mut Vec<Case>) {
    let one = frames(1000, 11_200, &[(0, 1000)]).samples();
    cases.push(
        Calls::new(1000)
            .pushes(100, &one)
            .case("a frame, and its message 10 s later"),
    );
    cases.push(
        Calls::new(1000)
            .push(&one)
            .flush()
            .case("a frame in one push, then a flush"),
    );
    let quiet = vec![-110.0; 12_000];
    let unscanned = Calls::new(1000)
        .push(&quiet[..499])
        .flush()
        .push(&quiet[..1])
        .push(&quiet[..499]);
    cases.push(
        unscanned
            .push(&[])
            .push(&quiet[..1])
            .case("a flush leaves the unscanned count"),
    );
    let full = Calls::new(1000)
        .push(&quiet)
        .push(&[])
        .push(&quiet[..1])
        .push(&quiet)
        .push(&quiet);
    cases.push(full.flush().flush().case("full buffers and drops"));
    for rate in [200, 201, 203, 207, 3999] {
        let half = (rate as usize).div_ceil(2);
        let calls = Calls::new(rate)
            .push(&quiet[..half - 1])
            .push(&quiet[..1])
            .push(&quiet[..half]);
        cases.push(calls.case(format!("half a second at {rate}")));
    }
    for early in [299, 300, 301] {
        let air = frames(1000, 2450 + early, &[(0, 1000)]);
        cases.push(
            Calls::new(1000)
                .pushes(2450 + early, &air.samples())
                .case(format!("{early} after the frame")),
        );
    }
    for rate in [201, 202, 203, 205, 207, 3999] {
        let r = rate as usize;
        let start = 3 * r;
        let end = start + envelope(&two_bytes(1), 0, rate, -60.0).len();
        for tail in 3 * r / 10 - 1..=3 * r / 10 + 2 {
            let dbm = frames(rate, end + tail, &[(0, start)]).samples();
            let calls = Calls::new(rate).push(&dbm).push(&[-110.0]).flush();
            cases.push(calls.case(format!("{tail} after the frame at {rate}")));
        }
    }
    let running = frames(1000, 4000, &[(0, 1000)]).samples();
    let calls = Calls::new(1000).push(&running[..1800]).flush().push(&running[1800..]);
    cases.push(calls.flush().case("a flush in the middle of a frame uses up its start"));
}

/// Bursts at the buffer's first places, and starts that move.
fn starts(cases: &mut Vec<Case>) {
    for at in [0, 1, 2] {
        let dbm = frames(1000, 4000, &[(0, at)]).samples();
        cases.push(
            Calls::new(1000)
                .pushes(250, &dbm)
                .flush()
                .case(format!("a frame from sample {at}")),
        );
    }
    for at in [5999, 6000, 6001] {
        let mut air = Air::quiet(1000, 26_000, -110.0);
        air.background(12_000, -120.0);
        air.send(at, &envelope(&two_bytes(1), 0, 1000, -100.0));
        let calls = Calls::new(1000).pushes(1000, &air.samples());
        cases.push(calls.flush().case(format!("a frame heard after a drop, from {at}")));
    }
    for rate in [200, 201, 203, 207, 1000] {
        let r = rate as usize;
        for lead in 3 * r / 10 - 1..=3 * r / 10 + 2 {
            let mut air = Air::quiet(rate, 20 * r, -110.0);
            air.background(7 * r, -120.0);
            air.send(5 * r - lead, &vec![-100.0; lead]);
            air.send(5 * r, &envelope(&two_bytes(1), 0, rate, -60.0));
            let calls = Calls::new(rate).pushes(r.div_ceil(2), &air.samples());
            cases.push(calls.flush().case(format!("a start that moves by {lead} at {rate}")));
        }
    }
    let mut long = Air::quiet(400, 16_000, -110.0);
    long.send(1000, &[-60.0; 9000]);
    long.send(11_000, &envelope(&two_bytes(1), 1, 400, -50.0));
    cases.push(
        Calls::new(400)
            .pushes(150, &long.samples())
            .flush()
            .case("a burst longer than the buffer"),
    );
    let many: Vec<f32> = (0..24_000).map(|i| comb(i % 70)).collect();
    for n in [37, 700, 2400] {
        cases.push(
            Calls::new(200)
                .pushes(n, &many)
                .flush()
                .case(format!("many bursts in pushes of {n}")),
        );
    }
}

/// A burst as short as can be with dips in it, then a gap as short as can be, at 200/s.
fn comb(i: usize) -> f32 {
    match i {
        0..61 if i % 4 == 2 => -90.0,
        0..61 => -60.0,
        _ => -110.0,
    }
}

fn merges(cases: &mut Vec<Case>) {
    let lists: [(&str, &[(usize, usize)]); 6] = [
        ("a rank twice", &[(0, 1000), (0, 4000)]),
        ("rank 1, then rank 0", &[(1, 1000), (0, 4000)]),
        ("ranks 0, 1, 2, 0", &[(0, 1000), (1, 3500), (2, 6000), (0, 8500)]),
        ("ranks 2, 1, 0", &[(2, 1000), (1, 3500), (0, 6000)]),
        ("rank 1 alone", &[(1, 3000)]),
        ("ranks 2 and 1", &[(2, 3000), (1, 6000)]),
    ];
    for (label, list) in lists {
        let dbm = frames(1000, 12_000, list).samples();
        cases.push(Calls::new(1000).push(&dbm).flush().case(format!("{label}, one push")));
        let calls = Calls::new(1000).pushes(100, &dbm).pushes(1000, &[-110.0; 12_000]);
        cases.push(calls.case(format!("{label}, in hundreds")));
    }
    let mut air = Air::quiet(1000, 30_000, -110.0);
    for (i, level) in [-60.0, -70.0, -50.0, -65.0, -40.0].iter().enumerate() {
        let uplink = two_bytes(1 + i as u32 % 2);
        air.send(1000 + 2000 * i, &envelope(&uplink, i % 3, 1000, *level));
    }
    cases.push(Calls::new(1000).pushes(333, &air.samples()).case("two devices in turn"));
    let raw = air.raw();
    let calls = raw.chunks(8).fold(Calls::new(1000), Calls::push_raw);
    cases.push(calls.flush().case("two devices in turn, raw eights"));
    let loud: Vec<u8> = raw.iter().map(|&v| v.saturating_sub(80)).collect();
    let calls = loud.chunks(1000).fold(Calls::new(1000), Calls::push_raw);
    cases.push(calls.flush().case("a peak of raw 0"));
}

/// 10 s met exactly, one sample at a time around it.
fn closings(cases: &mut Vec<Case>) {
    for start in [1000, 10_702, 10_713] {
        let end = start + 10_000;
        let air = frames(1000, end + 10, &[(0, start)]);
        let dbm = air.samples();
        let calls = Calls::new(1000)
            .pushes(500, &dbm[..end - 10])
            .pushes(1, &dbm[end - 10..]);
        cases.push(calls.case(format!("10 s after a frame from {start}")));
    }
    for rate in [200, 201, 203, 3999] {
        let start = rate as usize + 7;
        let end = start + 10 * rate as usize;
        let dbm = frames(rate, end + 5, &[(0, start)]).samples();
        let calls = Calls::new(rate)
            .pushes(rate as usize, &dbm[..end - 5])
            .pushes(1, &dbm[end - 5..]);
        cases.push(calls.case(format!("10 s after a frame at {rate}")));
    }
    for rate in [200, 201, 300, 1000] {
        for start in rounded_starts(rate) {
            let end = start + 10 * rate as usize;
            let dbm = frames(rate, end + 2, &[(0, start)]).samples();
            let calls = Calls::new(rate).pushes(rate as usize, &dbm[..end - 2]);
            let calls = calls.pushes(1, &dbm[end - 2..]);
            cases.push(calls.case(format!("10 s as rounded, from {start} at {rate}")));
        }
    }
    let dbm = frames(1000, 12_000, &[(0, 1000)]).samples();
    let calls = Calls::new(1000)
        .push(&dbm[..11_000])
        .push(&[])
        .push(&dbm[11_000..11_001])
        .push(&[]);
    cases.push(calls.case("an empty push closes too"));
}

/// Starts from which 10 s, as the Rust subtracts them, are over 10, and where a sum would say otherwise.
fn rounded_starts(rate: u32) -> Vec<usize> {
    let seconds = |samples: usize| samples as f64 / f64::from(rate);
    let ten = 10 * rate as usize;
    let over = |start: usize| seconds(start + ten) - seconds(start) > 10.0;
    let sum_over = |start: usize| seconds(start + ten) > seconds(start) + 10.0;
    let starts = || rate as usize..2 * rate as usize;
    let early = starts().filter(|&s| over(s)).take(2);
    let parted = starts().filter(|&s| over(s) != sum_over(s)).take(2);
    early.chain(parted).collect()
}

/// A weak frame is heard only after the background sank, so a later frame is taken before it.
fn sinking_floor(cases: &mut Vec<Case>) {
    let mut air = Air::quiet(1000, 24_000, -110.0);
    air.background(7400, -120.0);
    air.send(5000, &envelope(&two_bytes(1), 0, 1000, -100.0));
    air.send(7500, &envelope(&two_bytes(1), 1, 1000, -60.0));
    let dbm = air.samples();
    cases.push(
        Calls::new(1000)
            .pushes(100, &dbm)
            .case("the last frame joined is not the latest"),
    );
    let calls = Calls::new(1000).pushes(12_000, &dbm).flush();
    cases.push(calls.case("the same in pushes of 12 s"));
}

fn refused(cases: &mut Vec<Case>) {
    for rate in [0, 199, 4001, u32::MAX] {
        let calls = Calls::new(rate).push(&[f32::NAN]).push_raw(&[1, 2]).flush();
        cases.push(calls.case(format!("rate {rate}")));
    }
    let dbm = frames(200, 2000, &[(0, 300)]).samples();
    let calls = Calls::new(200)
        .push(&dbm[..700])
        .push(&[-100.0; 2401])
        .push_raw(&[200; 2401]);
    let calls = calls
        .push(&[-100.0, f32::NAN])
        .push(&[100.1])
        .push(&[-200.1])
        .push(&[f32::INFINITY; 2401]);
    let calls = calls
        .push(&dbm[700..])
        .push(&[-200.0, 100.0, -0.0, 0.0])
        .push_raw(&[0, 255]);
    cases.push(
        calls
            .push_raw(&[200; 2400])
            .push(&[-100.0; 2400])
            .flush()
            .case("refused calls change nothing"),
    );
}
