//! The lists that are lent to a tracker, a tracker that is handed in with them, and 01's order and numbers of its state.

use super::Tracker;
use crate::limits::{self, Checked, LONGEST_STREAM, READINGS_HELD, TUNINGS_HELD};
use crate::rust::frequency::{FrequencyTracker, Reading};
use crate::text::{Input, hex64, or_dash};

/// How far past the stream's end a reading may stand.
const AHEAD: i64 = 32_760;

/// The lists whole, how many readings and tunings the tracker says that they hold, and the scratch's length.
pub struct Lent {
    at: Vec<u64>,
    lo: Vec<u32>,
    hz: Vec<f64>,
    tuned: Vec<u64>,
    freq: Vec<u32>,
    readings: u64,
    tunings: u64,
    scratch: usize,
}

impl Lent {
    /// The program's own.
    pub fn empty() -> Self {
        Self {
            at: vec![0; READINGS_HELD],
            lo: vec![0; READINGS_HELD],
            hz: vec![0.0; READINGS_HELD],
            tuned: vec![0; TUNINGS_HELD],
            freq: vec![0; TUNINGS_HELD],
            readings: 0,
            tunings: 0,
            scratch: READINGS_HELD,
        }
    }

    /// The most readings that all three lists have places for.
    pub fn reading_places(&self) -> usize {
        self.at.len().min(self.lo.len()).min(self.hz.len())
    }

    pub fn tuning_places(&self) -> usize {
        self.tuned.len().min(self.freq.len())
    }

    /// Cause 2: "f64 scratch, one for each reading held".
    pub fn scratch(&self) -> Checked {
        limits::scratch(self.readings <= self.scratch as u64)
    }

    /// The tracker's readings in front; places past them keep what they have.
    pub fn store_readings(&mut self, t: &FrequencyTracker) {
        for (i, r) in t.readings.iter().enumerate() {
            (self.at[i], self.lo[i], self.hz[i]) = (r.at as u64, r.lo, r.hz);
        }
        self.readings = t.readings.len() as u64;
    }

    pub fn store_tunings(&mut self, t: &FrequencyTracker) {
        for (i, &(at, freq)) in t.tuning.iter().enumerate() {
            (self.tuned[i], self.freq[i]) = (at as u64, freq);
        }
        self.tunings = t.tuning.len() as u64;
    }

    fn readings(&self) -> Vec<Reading> {
        let count = self
            .reading_places()
            .min(self.readings.try_into().unwrap_or(usize::MAX));
        let reading = |i: usize| Reading {
            at: index(self.at[i]),
            lo: self.lo[i],
            hz: self.hz[i],
        };
        (0..count).map(reading).collect()
    }

    fn tunings(&self) -> Vec<(i64, u32)> {
        let count = self.tuning_places().min(self.tunings.try_into().unwrap_or(usize::MAX));
        (0..count).map(|i| (index(self.tuned[i]), self.freq[i])).collect()
    }
}

/// An index too large for the Rust's is the largest, which is past every stream too.
fn index(i: u64) -> i64 {
    i.try_into().unwrap_or(i64::MAX)
}

/// 01: "stream count 0 to 2^40, line start, last signal .. 0 to that count, frame start -1 to it"
fn signal_in_order(t: &FrequencyTracker) -> bool {
    (0..=LONGEST_STREAM as i64).contains(&t.n)
        && (0..=t.n).contains(&t.line_start)
        && t.last_signal.is_none_or(|s| (0..=t.n).contains(&s))
        && (-1..=t.n).contains(&t.frame_from)
}

/// "tracker counts within their lists", "tuning indices 0 to that count"
pub fn tunings_in_order(lent: &Lent, t: &FrequencyTracker) -> bool {
    signal_in_order(t)
        && lent.tunings <= lent.tuning_places() as u64
        && t.tuning.iter().all(|(at, _)| (0..=t.n).contains(at))
}

/// "tracker counts within their lists", "reading indices 0 to it plus 32,760"
pub fn readings_in_order(lent: &Lent, t: &FrequencyTracker) -> bool {
    signal_in_order(t)
        && lent.readings <= lent.reading_places() as u64
        && t.readings.iter().all(|r| (0..=t.n + AHEAD).contains(&r.at))
}

/// "floor not -200 to 100"; no NaN lies in a range
pub fn floor_ok(t: &FrequencyTracker) -> bool {
    t.floor.is_none_or(|f| (-200.0..=100.0).contains(&f))
}

/// "any NaN" among the readings held
pub fn any_nan(t: &FrequencyTracker) -> bool {
    t.readings.iter().any(|r| r.hz.is_nan())
}

/// The tracker of the input; none where the input ends too early.
pub fn read(input: &mut Input) -> Option<Tracker> {
    let (rate, base_freq, step_hz) = (input.u32()?, input.u32()?, input.f64()?);
    let mut inner = FrequencyTracker::new(rate, base_freq, step_hz);
    inner.line_start = index(input.u64()?);
    let (readings, tunings) = (input.u64()?, input.u64()?);
    let (asked, hz) = (input.u8()?, input.u32()?);
    inner.requested = (asked != 0).then_some(hz);
    inner.n = index(input.u64()?);
    let (known, floor) = (input.u8()?, input.f64()?);
    inner.floor = (known != 0).then_some(floor);
    let (known, from) = (input.u8()?, input.u64()?);
    inner.frame_from = if known != 0 { index(from) } else { -1 };
    let (known, last) = (input.u8()?, input.u64()?);
    inner.last_signal = (known != 0).then_some(index(last));
    inner.retuned = input.u8()? != 0;
    let scratch = (input.u32()? as usize).min(READINGS_HELD);
    let lent = Lent {
        at: first(input.u64s()?, READINGS_HELD),
        lo: first(input.u32s()?, READINGS_HELD),
        hz: first(input.f64s()?, READINGS_HELD),
        tuned: first(input.u64s()?, TUNINGS_HELD),
        freq: first(input.u32s()?, TUNINGS_HELD),
        readings,
        tunings,
        scratch,
    };
    inner.readings = lent.readings();
    inner.tuning = lent.tunings();
    Some(Tracker {
        rate,
        step_hz,
        inner,
        lent,
    })
}

/// Elements past the program's last place are read over.
fn first<T>(mut list: Vec<T>, places: usize) -> Vec<T> {
    list.truncate(places);
    list
}

/// Every place of the lists, and what is asked for.
pub fn line(lent: &Lent, t: &FrequencyTracker) -> String {
    format!(
        "lists {}{}{}{}{}{}",
        or_dash(t.requested),
        list(&lent.at, u64::to_string),
        list(&lent.lo, u32::to_string),
        list(&lent.hz, |&x| hex64(x)),
        list(&lent.tuned, u64::to_string),
        list(&lent.freq, u32::to_string),
    )
}

fn list<T>(items: &[T], text: impl Fn(&T) -> String) -> String {
    items
        .iter()
        .fold(format!(" {}", items.len()), |line, item| line + " " + &text(item))
}
