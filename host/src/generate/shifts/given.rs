//! States whose messages were heard about the edges of the shifts.

use super::blocks::{DAY_S, LATEST_S, Shifts, WEEK_S, near, spoiled};
use super::edges::odd_times;
use crate::generate::Case;
use crate::generate::events::Calls;
use crate::generate::events::given::{State, Waiting, spans};
use crate::generate::rng::Rng;

/// A state in order that holds no sample.
pub fn state(base: u64, waiting: Vec<Waiting>) -> State {
    State {
        base,
        unscanned: 0,
        held: vec![],
        starts: vec![],
        waiting,
    }
}

/// States with messages about the edges of the shifts, each with a push or a flush, or both.
pub fn random(rng: &mut Rng, rate: u32) -> Case {
    let mut calls = Calls::new(rate);
    for _ in 0..rng.range(1, 6) {
        let second = (rng.unit() * LATEST_S) as u64;
        let shifts = near(rng, second);
        let now = 100.0;
        let messages: Vec<Waiting> = (0..rng.below(8) as u32)
            .map(|i| {
                let ranks = spans(rng);
                // a push writes the first
                let last = now - rng.pick(&[10.5, 5.0]);
                let spare = rng.next() as u8;
                let time = time_near(rng, &shifts, second);
                let message = Waiting::new(rng, i / 2, (i % 2) as u16, &ranks, last);
                message.heard(time).spare(34, &[spare])
            })
            .collect();
        calls = calls.given(&state(100 * u64::from(rate), messages));
        if rng.chance(0.1) {
            let bad = spoiled(rng, &shifts);
            calls = calls.flush().shifts(&bad);
        }
        calls = match rng.below(4) {
            0 => calls.push(&[-110.0]).shifts(&shifts),
            1 => calls.push_raw(&[220]).shifts(&shifts),
            _ => calls,
        };
        let others = near(rng, second);
        let last = rng.pick(&[&shifts, &shifts, &others]).clone();
        calls = calls.flush().shifts(&last);
    }
    calls.case("states with messages about the edges")
}

/// A time at or beside an edge of the shifts in some week, or an odd one.
fn time_near(rng: &mut Rng, s: &Shifts, second: u64) -> f64 {
    if rng.chance(0.1) {
        return rng.pick(&odd_times());
    }
    // counted as the week's seconds are
    let at = u64::from(s.start) + second;
    let (week, day) = (at / WEEK_S * WEEK_S, at / DAY_S * DAY_S);
    let &(from, to) = rng.pick(&[s.windows.first(), s.windows.last()]).unwrap_or(&(0, 1));
    let minute = |minute: u16| week + 60 * u64::from(minute);
    let edge = rng.pick(&[minute(from), minute(to), day, day + DAY_S]) as f64 - f64::from(s.start);
    let beside = edge + rng.pick(&[-60.0, -1.0, -0.5, 0.0, 0.5, 1.0, 59.5, 60.0]);
    rng.pick(&[edge, edge.next_down(), edge.next_up(), beside, beside])
}
