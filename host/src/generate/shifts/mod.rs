//! Inputs of `shifts`: calls as those of `events`, with a start second, windows and closed dates behind each.

mod blocks;
mod edges;
mod given;

use super::events::{self, Calls, HEADER};
use super::rng::Rng;
use super::{Case, cut, signal};
use blocks::{Shifts, near, spoiled};

pub use edges::directed;

/// The call that hands in a state.
const GIVEN: u8 = 3;
/// Bytes of a message that waits.
const WAITING: usize = 128;

/// What the gate replays: the small edges in one run, states at random, and one that is cut short.
pub fn sample() -> Case {
    let mut rng = Rng::new(1);
    let mut cases = edges::small();
    cases.extend((0..4).map(|_| given::random(&mut rng, edges::RATE)));
    cases.push(edges::whole().case("cut"));
    let mut calls = Calls::new(edges::RATE);
    for case in &cases {
        calls = Calls(calls.0.raw(&case.bytes[HEADER..]));
    }
    calls.0.0.pop();
    Case {
        short: true,
        ..calls.case("directed cases, then random ones")
    }
}

pub fn random(rng: &mut Rng) -> Case {
    let whole = if rng.chance(0.3) {
        let rate = signal::rate(rng);
        given::random(rng, rate)
    } else {
        let case = events::random(rng);
        shifted(rng, &case)
    };
    if !whole.short && rng.chance(0.03) {
        cut(rng, HEADER, whole)
    } else {
        whole
    }
}

/// A case of `events` with shifts behind the arguments of each call: the same throughout, or others each time; some are refused.
fn shifted(rng: &mut Rng, case: &Case) -> Case {
    let refused = rng.pick(&[0.0, 0.0, 0.02, 0.2]);
    let steady = rng.chance(0.3);
    let (mut second, mut shifts) = (0, near(rng, 0));
    behind_each(case, |from| {
        if !steady || from != second {
            (second, shifts) = (from, near(rng, from));
        }
        if rng.chance(refused) {
            spoiled(rng, &shifts)
        } else {
            shifts.clone()
        }
    })
}

/// A case of `events` with shifts behind the arguments of each call, made for the second at which the given state's samples begin, or for 0.
fn behind_each(case: &Case, mut shifts: impl FnMut(u64) -> Shifts) -> Case {
    let (header, mut rest) = case.bytes.split_at(HEADER);
    let rate = u32::from_le_bytes(*header.first_chunk().expect("a run begins with its rate"));
    let mut calls = Calls::new(rate);
    let mut second = 0;
    while let Some(length) = length(rest).filter(|&length| length <= rest.len()) {
        let (call, later) = rest.split_at(length);
        rest = later;
        calls = Calls(calls.0.raw(call));
        if call[0] == GIVEN {
            let base = u64::from_le_bytes(*call[1..].first_chunk().expect("a state begins with its base"));
            second = base / u64::from(rate).max(1);
        } else {
            calls = calls.shifts(&shifts(second));
        }
    }
    Case {
        short: case.short,
        ..Calls(calls.0.raw(rest)).case(format!("{}, shifts", case.label))
    }
}

/// How many bytes the first call of `events` takes; none where there is none, or where it ends too early.
fn length(calls: &[u8]) -> Option<usize> {
    let count = |at: usize| {
        let bytes = calls.get(at..)?.first_chunk()?;
        Some(u32::from_le_bytes(*bytes) as usize)
    };
    Some(match calls.first()? {
        0 => 5 + 4 * count(1)?,
        1 => 5 + count(1)?,
        2 => 1,
        _ => {
            let starts = 17 + 4 * count(13)?;
            let messages = starts + 1 + 8 * usize::from(*calls.get(starts)?);
            messages + 1 + WAITING * usize::from(*calls.get(messages)?)
        }
    })
}

#[cfg(test)]
mod tests {
    use super::*;
    use crate::oracle::lines;

    fn answers(case: &Case) -> String {
        lines("shifts", &case.bytes).expect("it is a format")
    }

    /// Byte 34 of each message record, as digits; other records must hold 0.
    fn marks(answers: &str) -> String {
        let records = answers.lines().filter(|line| line.len() == 240);
        let (messages, frames): (Vec<&str>, Vec<&str>) = records.partition(|r| r.starts_with("02"));
        assert!(frames.iter().all(|r| &r[68..70] == "00"));
        messages.iter().map(|r| r[69..70].to_string()).collect()
    }

    #[test]
    fn lines_of_the_examples() {
        let answers = answers(&directed()[0]);
        let ends: Vec<&str> = answers.lines().filter(|line| line.len() < 240).collect();
        let calls = ["C 0 flush 3", "C 1 flush 3", "C 2 flush 2", "C 3 flush 1"];
        let expected: Vec<&str> = calls
            .iter()
            .flat_map(|call| [call, "S 0 0 0 0 0"])
            .chain(["R 11"])
            .collect();
        assert_eq!(ends, expected);
        assert_eq!(marks(&answers), "221122120");
    }

    /// Without a start second all lines are those of `events`; with one, all but the marks.
    #[test]
    fn lines_of_events() {
        for case in events::directed().iter().step_by(7) {
            let expected = lines("events", &case.bytes).expect("it is a format");
            let with = |shifts: &Shifts| answers(&behind_each(case, |_| shifts.clone()));
            let week = Shifts::whole_week(0);
            assert_eq!(with(&week.not_given()), expected, "{}", case.label);
            let marked = with(&week);
            let unmarked = |line: &str| match line.strip_prefix("02") {
                Some(_) => format!("{}00{}", &line[..68], &line[70..]),
                None => line.to_string(),
            };
            let unmarked: Vec<String> = marked.lines().map(unmarked).collect();
            assert!(unmarked.iter().eq(expected.lines()), "{}", case.label);
        }
    }

    /// Inputs would show little if their messages were all of one mark.
    #[test]
    fn every_mark_arises() {
        let mut found = [0; 3];
        let mut refused = 0;
        for index in 0..60 {
            let case = random(&mut Rng::of_case("shifts", 1, index));
            let answers = answers(&case);
            refused += answers.matches("R 11\n").count();
            for mark in marks(&answers).bytes() {
                found[usize::from(mark - b'0')] += 1;
            }
        }
        assert!(found.iter().all(|&count| count > 10), "{found:?}");
        assert!(refused > 20, "{refused}");
    }

    /// Behind each lower cause 11 is not seen; alone it is.
    #[test]
    fn every_cause_arises() {
        let all: String = directed().iter().map(answers).collect();
        for cause in [1, 3, 4, 5, 7, 9, 11] {
            assert!(all.lines().any(|line| line == format!("R {cause}")), "{cause}");
        }
    }
}
