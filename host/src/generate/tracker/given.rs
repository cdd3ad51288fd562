//! Trackers that are handed in: in order, or with one rule broken.

use super::{BASE, Calls, LOUD, QUIET};
use crate::generate::Case;
use crate::generate::band::STEP_HZ;
use crate::generate::rng::Rng;

const LONGEST_STREAM: u64 = 1 << 40;
const AHEAD: u64 = 32_760;

/// Every field of a tracker, the lists whole, and the scratch's length.
#[derive(Clone)]
pub struct State {
    rate: u32,
    base_freq: u32,
    step_hz: f64,
    line_start: u64,
    readings: u64,
    tunings: u64,
    requested: Option<u32>,
    n: u64,
    floor: Option<f64>,
    frame_from: Option<u64>,
    last_signal: Option<u64>,
    retuned: bool,
    scratch: u32,
    at: Vec<u64>,
    lo: Vec<u32>,
    hz: Vec<f64>,
    tuned: Vec<u64>,
    freq: Vec<u32>,
}

impl Calls {
    /// The tracker goes on from a state that is handed in.
    pub fn given(self, s: &State) -> Self {
        let put = self.0.u8(7).u32(s.rate).u32(s.base_freq).f64(s.step_hz);
        let put = put.u64(s.line_start).u64(s.readings).u64(s.tunings);
        let put = put.u8(s.requested.is_some().into()).u32(s.requested.unwrap_or(0));
        let put = put.u64(s.n).u8(s.floor.is_some().into()).f64(s.floor.unwrap_or(0.0));
        let put = put.u8(s.frame_from.is_some().into()).u64(s.frame_from.unwrap_or(0));
        let put = put.u8(s.last_signal.is_some().into()).u64(s.last_signal.unwrap_or(0));
        let put = put.u8(s.retuned.into()).u32(s.scratch);
        Self(put.u64s(&s.at).u32s(&s.lo).f64s(&s.hz).u64s(&s.tuned).u32s(&s.freq))
    }

    /// Every place of the lists.
    pub fn lists(self) -> Self {
        Self(self.0.u8(8))
    }
}

/// A tracker at 1,000/s in the middle of a frame, with places left in every list.
fn plain() -> State {
    let n = 100_000;
    let at: Vec<u64> = (0..16).map(|i| n - 120 + 8 * i).collect();
    let hz = |i: u32| f64::from(BASE) + f64::from(i % 7) * STEP_HZ;
    State {
        rate: 1000,
        base_freq: BASE,
        step_hz: STEP_HZ,
        line_start: n - 8,
        readings: 14,
        tunings: 2,
        requested: None,
        n,
        floor: Some(-110.0),
        frame_from: Some(n - 301),
        last_signal: Some(n),
        retuned: false,
        scratch: 14,
        at,
        lo: vec![BASE; 16],
        hz: (0..16).map(hz).collect(),
        tuned: vec![10, 20, 77],
        freq: vec![BASE + 9, BASE, 78],
    }
}

fn maybe<T>(rng: &mut Rng, value: T) -> Option<T> {
    rng.chance(0.7).then_some(value)
}

/// An index at most n, mostly near it.
fn index(rng: &mut Rng, n: u64) -> u64 {
    match rng.below(4) {
        0 => rng.next() % (n + 1),
        1 => n,
        _ => n.saturating_sub(rng.below(2000) as u64),
    }
}

/// A tracker in order.
fn in_order(rng: &mut Rng, rate: u32) -> State {
    let n = match rng.below(5) {
        0 => 0,
        1 => LONGEST_STREAM - rng.below(20) as u64,
        2 => rng.next() % LONGEST_STREAM,
        _ => rng.range(1, 300 * rate as usize) as u64,
    };
    let readings = rng.pick(&[0, 4, 5, 6, 30, 64, 90]);
    let tunings = rng.below(5);
    let (places, left) = (readings + rng.pick(&[0, 1, 20]), tunings + rng.below(3));
    let keep = n.saturating_sub(60 * u64::from(rate));
    let rising = rng.chance(0.6);
    let mut at: Vec<u64> = (0..places)
        .map(|_| match rng.below(4) {
            0 => keep + rng.below(3) as u64,
            1 => rng.next() % (n + AHEAD + 1),
            2 => n + AHEAD - rng.below(9) as u64,
            _ => index(rng, n),
        })
        .map(|at| at.min(n + AHEAD))
        .collect();
    if rising {
        at.sort_unstable();
    }
    let lo: Vec<u32> = (0..places).map(|_| rng.pick(&[BASE, BASE, BASE, BASE + 500])).collect();
    let wide = rng.chance(0.1);
    let hz = (0..places)
        .map(|i| match rng.below(if wide { 8 } else { 4 }) {
            4 => f64::INFINITY,
            5 => -0.0,
            6 => -1e300,
            7 => 5e-324,
            k => f64::from(lo[i]) + k as f64 * STEP_HZ,
        })
        .collect();
    State {
        rate,
        base_freq: BASE,
        step_hz: rng.pick(&[STEP_HZ, 10_000.0, 5e-324]),
        line_start: index(rng, n),
        readings: readings as u64,
        tunings: tunings as u64,
        requested: rng.chance(0.2).then_some(BASE),
        n,
        floor: maybe(rng, -110.0).or_else(|| maybe(rng, 100.0)),
        frame_from: maybe(rng, n).map(|n| index(rng, n)),
        last_signal: maybe(rng, n).map(|n| index(rng, n)),
        retuned: rng.chance(0.5),
        scratch: (readings + rng.pick(&[0, 1, 8000])) as u32,
        at,
        lo: [&lo[..], &[7][..rng.below(2)]].concat(),
        hz,
        tuned: (0..left).map(|_| index(rng, n)).collect(),
        freq: (0..left + rng.below(2)).map(|i| BASE + i as u32 % 2).collect(),
    }
}

/// Ways to spoil a tracker, and some that must not matter.
const RULES: usize = 29;

/// The tracker with one rule broken.
fn spoiled(s: &State, rule: usize) -> State {
    let mut t = s.clone();
    let (held, tunings) = (t.readings as usize, t.tunings as usize);
    match rule {
        0 => t.rate = 199,
        1 => t.rate = 4001,
        2 => t.at.truncate(held.saturating_sub(1)),
        3 => t.lo.truncate(held.saturating_sub(1)),
        4 => t.hz.truncate(held.saturating_sub(1)),
        5 => t.tuned.truncate(tunings.saturating_sub(1)),
        6 => t.freq.truncate(tunings.saturating_sub(1)),
        7 => t.readings = 1 << 32,
        8 => t.tunings = u64::MAX,
        9 => t.n = LONGEST_STREAM + 1,
        10 => t.line_start = t.n + 1,
        11 => t.last_signal = Some(t.n + 1),
        12 => t.frame_from = Some(t.n + 1),
        13 => t.frame_from = Some(u64::MAX),
        14 => replace_last(&mut t.tuned, tunings, t.n + 1),
        15 => replace_last(&mut t.at, held, t.n + AHEAD + 1),
        16 => replace_last(&mut t.at, held, u64::MAX),
        17 => t.scratch = (held as u32).saturating_sub(1),
        18 => replace_last(&mut t.hz, held, f64::NAN),
        19 => t.floor = Some(f64::NAN),
        20 => t.floor = Some(100.000_001),
        21 => t.floor = Some(-200.000_001),
        22 => t.step_hz = 0.0,
        23 => t.step_hz = f64::NAN,
        24 => t.step_hz = 10_000.000_001,
        25 => {
            t.at.truncate(held);
            t.lo.truncate(held);
            t.hz.truncate(held);
        }
        26 => {
            t.tuned.truncate(tunings);
            t.freq.truncate(tunings);
        }
        // past the counts nothing is looked at
        27 => t.hz.push(f64::NAN),
        _ => {
            t.at.push(u64::MAX);
            t.tuned.push(u64::MAX);
        }
    }
    t
}

fn replace_last<T>(list: &mut [T], count: usize, value: T) {
    if let Some(last) = list.iter_mut().take(count).last() {
        *last = value;
    }
}

/// Every call, those that change nothing first.
fn every(calls: Calls, n: u64, rate: u32) -> Calls {
    let end = n as f64 / f64::from(rate);
    let spans = [
        (0, end - 0.9, end),
        (1, end - 0.6, end + 0.1),
        (2, end - 30.0, end + 40.0),
    ];
    let calls = calls
        .freq()
        .frame_frequency(0, end - 0.6, end)
        .frame_frequency(3, 0.0, 1.0);
    let calls = calls.frame1(true, &spans).frame1(false, &spans).next().lists();
    let calls = calls.tuned(BASE).cfo(&[]).cfo(&[5, 0xffb, 9]).lists();
    let calls = calls.level(8, LOUD).lists().next().tuned(BASE + 1).tuned(BASE + 2);
    calls.level(9, QUIET).cfo(&[1]).lists().freq()
}

pub fn directed(cases: &mut Vec<Case>) {
    let calls = || Calls::new(1000, BASE, STEP_HZ);
    let s = plain();
    cases.push(every(calls().given(&s), s.n, s.rate).case("a given tracker"));
    for rule in 0..RULES {
        let bad = spoiled(&s, rule);
        cases.push(every(calls().given(&bad), s.n, bad.rate).case(format!("a given tracker, rule {rule} broken")));
        for other in rule + 1..RULES {
            let both = spoiled(&bad, other);
            let calls = every(calls().given(&both), s.n, both.rate);
            cases.push(calls.case(format!("a given tracker, rules {rule} and {other} broken")));
        }
    }
    for (n, samples) in [(8, 8), (8, 9), (0, 1)] {
        let mut late = s.clone();
        late.n = LONGEST_STREAM - n;
        let calls = calls().given(&late).level(samples, QUIET).lists().level(1, QUIET);
        cases.push(calls.case(format!("{samples} samples {n} before the longest stream's end")));
    }
    let bad = Calls::new(199, BASE, f64::NAN).freq().lists().given(&s).freq().lists();
    cases.push(bad.next().case("a given tracker after a header that is refused"));
    let mut long = s.clone();
    long.at = (0..8003).collect();
    long.lo = vec![BASE; 8001];
    long.hz = vec![f64::from(BASE); 8002];
    (long.tuned, long.freq, long.scratch) = (vec![1; 66], vec![BASE; 65], u32::MAX);
    for (readings, tunings) in [(8000, 64), (8001, 64), (8000, 65), (7999, 63)] {
        (long.readings, long.tunings) = (readings, tunings);
        let calls = every(calls().given(&long), long.n, long.rate);
        cases.push(calls.case(format!("{readings} and {tunings} in lists that are too long")));
    }
}

/// Given trackers, in order and not, with calls at random.
pub fn random(rng: &mut Rng, rate: u32) -> Case {
    let mut calls = Calls::new(rate, BASE, STEP_HZ);
    for _ in 0..rng.range(1, 4) {
        let mut s = in_order(rng, rate);
        while rng.chance(0.3) {
            s = spoiled(&s, rng.below(RULES));
        }
        calls = calls.given(&s);
        if rng.chance(0.5) {
            calls = every(calls, s.n.min(LONGEST_STREAM), rate);
        }
        let end = s.n.min(LONGEST_STREAM) as f64 / f64::from(rate);
        for _ in 0..rng.below(20) {
            calls = match rng.below(9) {
                0 => calls.tuned(BASE + rng.below(3) as u32),
                1 | 2 => calls.level(rng.pick(&[0, 1, 8, rate as usize]), rng.pick(&[QUIET, LOUD])),
                3 => calls.cfo(&vec![rng.next() as u16; rng.pick(&[0, 1, 5, 21])]),
                4 => calls.frame_frequency(0, end - rng.real(0.0, 70.0), end + rng.real(0.0, 9.0)),
                5 => {
                    let time = end - rng.real(0.0, 9.0);
                    calls.frame1(rng.chance(0.5), &[(0, time, end), (1, time, end), (2, time, end)])
                }
                6 => calls.freq(),
                7 => calls.lists(),
                _ => calls.next(),
            };
        }
    }
    calls.lists().case("given trackers")
}

/// A tracker in order and every way to spoil it; then one that is cut short.
pub fn sample(calls: Calls) -> Calls {
    let s = plain();
    let mut calls = every(calls.given(&s), s.n, s.rate);
    for rule in 0..RULES {
        let bad = spoiled(&s, rule);
        calls = every(calls.given(&bad), bad.n, bad.rate);
    }
    let rng = &mut Rng::new(7);
    for _ in 0..4 {
        let s = in_order(rng, 250);
        calls = every(calls.given(&s), s.n, s.rate);
    }
    Calls(calls.0.u8(7).u32(250).u32(BASE))
}
