//! States that are handed in: in order, or out of it by one rule.

use std::ops::Range;

use super::Calls;
use crate::generate::put::Put;
use crate::generate::rng::Rng;
use crate::generate::signal::Air;
use crate::generate::{Case, frame::Uplink};

const RECORD: usize = 120;

/// A message that waits: its record's bytes, and the time of the frame that joined last.
#[derive(Clone)]
pub struct Waiting {
    record: [u8; RECORD],
    last: f64,
}

#[derive(Clone)]
pub struct State {
    pub base: u64,
    pub unscanned: u32,
    pub held: Vec<f32>,
    pub starts: Vec<u64>,
    pub waiting: Vec<Waiting>,
}

impl Waiting {
    /// A message of one frame of 1.5 s with rank 0, that began at this time; the last frame joined at 0.
    pub fn plain(number: u8, time: f64, start: u64) -> Self {
        let mut w = Self {
            record: [0; RECORD],
            last: 0.0,
        };
        w.put(0, &[2, 1, 4 + 32, 0, 2]);
        w.put(8, &[number, 1, 0, 0, number]);
        w.put(40, &(-50f32).to_le_bytes());
        w.put(44, &[0, 255, 255]);
        for at in [48, 64] {
            w.put_f64(at, time);
            w.put_f64(at + 8, time + 1.5);
        }
        w.put(112, &start.to_le_bytes());
        w
    }

    /// The message with another time.
    pub fn heard(mut self, time: f64) -> Self {
        self.put_f64(48, time);
        self
    }

    /// The message with something in bytes that are spare on their way in.
    pub fn spare(mut self, at: usize, bytes: &[u8]) -> Self {
        self.put(at, bytes);
        self
    }

    /// The message with this depth in half decibels.
    pub fn deep(mut self, depth: u8) -> Self {
        self.put(33, &[depth]);
        self
    }

    pub fn joined(self, last: f64) -> Self {
        Self { last, ..self }
    }

    fn put(&mut self, at: usize, bytes: &[u8]) {
        self.record[at..at + bytes.len()].copy_from_slice(bytes);
    }

    fn put_f64(&mut self, at: usize, x: f64) {
        self.put(at, &x.to_le_bytes());
    }

    /// A message of a device, with spans of these ranks; the last frame joined at `last`.
    pub fn new(rng: &mut Rng, device: u32, counter: u16, ranks: &[u8], last: f64) -> Self {
        let mut w = Self {
            record: [0; RECORD],
            last,
        };
        let payload = rng.below(13);
        let auth = rng.below(6);
        let known = rng.chance(0.5);
        let flags = rng.below(4) as u8 + 4 + 8 * rng.below(4) as u8;
        w.put(
            0,
            &[
                2,
                ranks.iter().map(|r| 1 << r).sum(),
                (flags & 31) | (32 * u8::from(known)),
            ],
        );
        w.put(3, &[payload as u8, auth as u8]);
        w.put(8, &device.to_le_bytes());
        w.put(12, &counter.to_le_bytes());
        // past the lengths there may be something, and between the spans places that hold none
        let rest = rng.chance(0.5);
        w.put(16, &rng.bytes(if rest { 12 } else { payload }));
        w.put(28, &rng.bytes(if rest { 5 } else { auth }));
        w.put(36, &(rng.below(20_000) as i32 - 10_000).to_le_bytes());
        w.put(40, &(rng.real(-120.0, -40.0) as f32).to_le_bytes());
        w.put(44, &[255; 3]);
        w.put_f64(48, last - 8.0);
        if known {
            w.put_f64(56, last - 6.55);
        }
        let mut place = 0;
        for (i, &rank) in ranks.iter().enumerate() {
            let time = last - 4.0 * (ranks.len() - 1 - i) as f64;
            place += rng.below(4 - (ranks.len() - i) - place);
            w.put(44 + place, &[rank]);
            w.put_f64(64 + 16 * place, time);
            w.put_f64(72 + 16 * place, time + 1.45);
            place += 1;
        }
        let drawn = rng.next().to_le_bytes();
        w.put(112, &drawn[..5]);
        w.deep(drawn[5])
    }
}

impl Calls {
    /// The receiver goes on from a state that is handed in.
    pub fn given(self, s: &State) -> Self {
        let mut put = self.0.u8(3).u64(s.base).u32(s.unscanned).f32s(&s.held);
        put = put.u8(s.starts.len() as u8);
        put = s.starts.iter().fold(put, |put, &start| put.u64(start));
        put = put.u8(s.waiting.len() as u8);
        Self(s.waiting.iter().fold(put, |put: Put, w| put.raw(&w.record).f64(w.last)))
    }
}

/// One to three different ranks.
pub fn spans(rng: &mut Rng) -> Vec<u8> {
    let first = rng.below(3) as u8;
    let mut ranks = vec![first];
    while ranks.len() < 3 && rng.chance(0.4) {
        let next = rng.below(3) as u8;
        if !ranks.contains(&next) {
            ranks.push(next);
        }
    }
    ranks
}

/// A message of each of these devices, last heard at 1 s.
fn devices(rng: &mut Rng, numbers: Range<u32>) -> Vec<Waiting> {
    numbers.map(|i| Waiting::new(rng, i, 1, &[0], 1.0)).collect()
}

/// A state in order around a stretch of air: `held` of its samples are held.
fn in_order(rng: &mut Rng, rate: u32, dbm: &[f32], held: usize) -> State {
    let r = u64::from(rate);
    let base = match rng.below(4) {
        0 => 0,
        1 => rng.below(20 * rate as usize) as u64,
        2 => (1 << 40) - dbm.len() as u64,
        _ => rng.next() % ((1 << 40) - dbm.len() as u64),
    };
    let end = base + held as u64;
    let mut starts = vec![];
    let mut at = base.saturating_sub(7 * r) + rng.next() % (2 * r);
    while at < end && starts.len() < 96 {
        if rng.chance(0.7) {
            starts.push(at);
        }
        at += (3 * r).div_ceil(10) + if rng.chance(0.3) { 0 } else { rng.next() % (3 * r) };
    }
    let now = end as f64 / f64::from(rate);
    let count = rng.pick(&[0, 1, 3, 34, 40]);
    let waiting = (0..count)
        .map(|i| {
            let ranks = spans(rng);
            let ago = rng.pick(&[0.0, 1.0, 9.5, 10.0, 10.5, 30.0, -5.0]);
            Waiting::new(rng, i / 2, (i % 2) as u16 + 5, &ranks, now - ago)
        })
        .collect();
    State {
        base,
        unscanned: (rng.next() % r.div_ceil(2)) as u32,
        held: dbm[..held].to_vec(),
        starts,
        waiting,
    }
}

/// Ways to spoil a state.
const RULES: usize = 16;

/// The state with one rule of 01's order broken, or with a NaN; 02: a start below minus the base, or one whose distance is no i32.
fn spoiled(rng: &mut Rng, rate: u32, s: &State, rule: usize) -> State {
    let r = u64::from(rate);
    let mut t = s.clone();
    match rule {
        0 => t.unscanned = rate.div_ceil(2),
        1 => t.base = (1 << 40) - t.held.len() as u64 + 1,
        2 => t.starts.push(t.base + t.held.len() as u64),
        3 => t.starts = vec![t.base.saturating_sub(7 * r + 1)],
        4 => t.starts = vec![t.base, t.base + (3 * r).div_ceil(10) - 1],
        5 => t.held = vec![f32::NAN],
        6 => t.waiting = vec![Waiting::new(rng, 1, 2, &[0], 1.0); 2],
        7 => t.waiting = vec![Waiting::new(rng, 1, 2, &[], 1.0)],
        8 => t.waiting = vec![Waiting::new(rng, 1, 2, &[1, 1], 1.0)],
        9 => t.waiting.push(Waiting::new(rng, 900, 2, &[1], f64::NAN)),
        10 => {
            let mut w = Waiting::new(rng, 901, 2, &[1], 1.0);
            w.put(3, &[13]);
            t.waiting = vec![w];
        }
        11 => t.held = vec![-110.0; 12 * rate as usize + 1],
        12 => t.starts = (0..97).map(|i| t.base + i).collect(),
        13 => {
            t.base = rng.next() % (7 * r);
            t.starts = vec![u64::MAX - rng.next() % (7 * r - t.base)];
        }
        14 => {
            let far = 1 << rng.pick(&[31, 32, 33, 63]);
            t.starts = vec![if rng.chance(0.5) { t.base + far } else { t.base.wrapping_sub(far) }];
        }
        _ => {
            let count = rng.pick(&[41, 64, 119, 120, 128, 255]);
            t.waiting = devices(rng, 0..count);
        }
    }
    t
}

/// Calls from states in order, with states out of order in between.
pub fn random(rng: &mut Rng, rate: u32, air: &Air) -> Case {
    let dbm = air.samples();
    let r = rate as usize;
    let held = rng.below(dbm.len().min(12 * r) + 1);
    let state = in_order(rng, rate, &dbm, held);
    let mut calls = Calls::new(rate);
    if rng.chance(0.3) {
        let rule = rng.below(RULES);
        let bad = spoiled(rng, rate, &state, rule);
        calls = calls.given(&bad).push(&dbm[..1]).flush();
    }
    calls = calls.given(&state);
    let step = rng.pick(&[8, r / 2, r, 12 * r]);
    for piece in dbm[held..].chunks(step) {
        calls = calls.push(piece);
        if rng.chance(0.05) {
            calls = calls.flush();
        }
    }
    calls.flush().flush().case("a given state")
}

/// A frame that ends a message of a given state, and one that joins it; states with 40 messages and with more.
pub fn directed(cases: &mut Vec<Case>) {
    let rng = &mut Rng::new(5);
    let rate = 1000;
    let mut air = Air::quiet(rate, 12_000, -110.0);
    let uplink = Uplink::new(2, 7, 5, 2, false, &[0xab, 0xcd, 1, 2, 3, 4]);
    air.send(2000, &super::envelope(&uplink, 2, rate, -60.0));
    let dbm = air.samples();
    for last in [90.0, 92.0 + 1e-9, 92.0, 92.5] {
        for ranks in [&[0u8][..], &[0, 1], &[2], &[1, 0, 2]] {
            let state = State {
                base: 100_000,
                unscanned: 499,
                held: dbm[..1000].to_vec(),
                starts: vec![93_000, 93_300, 100_999],
                waiting: vec![
                    Waiting::new(rng, 7, 5, ranks, last),
                    Waiting::new(rng, 7, 6, ranks, last),
                ],
            };
            let calls = Calls::new(rate).given(&state).push(&dbm[1000..6000]).flush();
            cases.push(calls.case(format!("given, last {last}, ranks {ranks:?}")));
        }
    }
    for waiting in [34, 40, 41, 64, 118, 119, 120, 128, 255] {
        let state = State {
            base: 0,
            unscanned: 0,
            held: dbm.clone(),
            starts: vec![],
            waiting: devices(rng, 0..waiting),
        };
        let calls = || Calls::new(rate).given(&state);
        cases.push(
            calls()
                .push(&dbm[..500])
                .flush()
                .case(format!("given, {waiting} waiting, push")),
        );
        cases.push(
            calls()
                .push_raw(&[200; 500])
                .flush()
                .case(format!("given, {waiting} waiting, push_raw")),
        );
        cases.push(
            calls()
                .flush()
                .push(&dbm[..500])
                .case(format!("given, {waiting} waiting, flush")),
        );
    }
    // the frame opens a 41st message: all are given back, and then the state is not in order
    let full = State {
        base: 0,
        unscanned: 0,
        held: dbm[..1000].to_vec(),
        starts: vec![],
        waiting: devices(rng, 100..140),
    };
    let calls = Calls::new(rate).given(&full).push(&dbm[1000..8000]);
    cases.push(
        calls
            .push(&dbm[8000..8008])
            .push_raw(&[200])
            .flush()
            .case("given, 40 waiting, and one more"),
    );
    for i in 0..5 * RULES {
        let state = in_order(rng, rate, &dbm, 3000);
        let bad = spoiled(rng, rate, &state, i % RULES);
        cases.push(
            Calls::new(rate)
                .given(&bad)
                .push(&dbm[..600])
                .flush()
                .case("given, one rule broken"),
        );
    }
}

/// States in order and every way to spoil one, each with a push and a flush; 40 messages and 41; then a state that is cut short.
pub fn sample(rate: u32, dbm: &[f32], calls: Calls) -> Calls {
    let rng = &mut Rng::new(10);
    let r = rate as usize;
    let mut calls = calls;
    for i in 0..RULES {
        let state = in_order(rng, rate, &dbm[..2 * r], r);
        let bad = spoiled(rng, rate, &state, i);
        calls = calls.given(&bad).push(&dbm[r..r + 8]).flush();
        if i % 3 == 0 {
            calls = calls.given(&state).push(&dbm[r..2 * r]).flush();
        }
    }
    for count in [40, 41] {
        let mut state = in_order(rng, rate, &dbm[..2 * r], r);
        state.waiting = devices(rng, 0..count);
        calls = calls.given(&state).push(&dbm[r..r + 8]).flush();
    }
    Calls(calls.0.u8(3).u64(1).u32(2))
}
