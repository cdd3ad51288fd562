//! `shifts`: the calls of `events` with shift windows (request 03), from 02's text; the Rust has none.

use super::events;
use crate::limits;
use crate::text::Input;

const DAY_S: u64 = 86_400;
const WEEK_S: u32 = 604_800;
const MINUTE_S: u64 = 60;
const WEEK_MINUTES: u16 = 10_080;
const MOST_WINDOWS: usize = 32;
/// The latest time of a message that can be inside.
const LATEST_S: f64 = 1e10;

const NOT_GIVEN: u8 = 0;
const INSIDE: u8 = 1;
const OUTSIDE: u8 = 2;

/// Minutes of the week.
struct Window {
    start: u16,
    end: u16,
}

/// What a call is given beside its samples; nothing of it where there are no shifts.
#[derive(Default)]
pub struct Shifts {
    /// "the second of the week at which the stream began (Monday 00:00 is 0)"
    start: Option<u32>,
    windows: Vec<Window>,
    closed: Vec<u32>,
}

pub fn stream(input: &mut Input, out: &mut String) -> Option<()> {
    events::calls(input, out, Shifts::read)
}

impl Window {
    /// A walk through the week, minute by minute from the start minute on, meets this one before it comes to the end minute.
    /// After Sunday's last minute comes Monday's first; where the ends are equal the walk takes the whole week.
    fn has(&self, minute: u16) -> bool {
        let mut at = self.start;
        loop {
            if at == minute {
                return true;
            }
            at = (at + 1) % WEEK_MINUTES;
            if at == self.end {
                return false;
            }
        }
    }
}

impl Shifts {
    /// The block behind a call's arguments; none where the input ends too early.
    fn read(input: &mut Input) -> Option<Self> {
        let given = input.u8()?;
        let second = input.u32()?;
        let mut shifts = Self {
            start: (given == 1).then_some(second),
            ..Self::default()
        };
        for _ in 0..input.u8()? {
            let (start, end) = (input.u16()?, input.u16()?);
            shifts.windows.push(Window { start, end });
        }
        for _ in 0..input.u16()? {
            shifts.closed.push(input.u32()?);
        }
        Some(shifts)
    }

    /// "It refuses, after 10, with 11 a start second of 604,800 or more, a minute of 10,080 or more, over 32 windows or closed dates that don't rise."
    pub fn check(&self) -> limits::Checked {
        limits::shifts(self.start.is_none_or(|second| second < WEEK_S))?;
        let in_week = |w: &Window| w.start < WEEK_MINUTES && w.end < WEEK_MINUTES;
        limits::shifts(self.windows.iter().all(in_week))?;
        limits::shifts(self.windows.len() <= MOST_WINDOWS)?;
        limits::shifts(self.closed.windows(2).all(|two| two[0] < two[1]))
    }

    /// "1 inside, 2 outside, 0 where no start second was given"
    pub fn mark(&self, time: f64) -> u8 {
        match self.start {
            None => NOT_GIVEN,
            Some(start) if self.is_inside(start.into(), time) => INSIDE,
            Some(_) => OUTSIDE,
        }
    }

    fn is_inside(&self, start: u64, time: f64) -> bool {
        // no NaN lies in a range, and -0 does
        if !(0.0..=LATEST_S).contains(&time) {
            return false;
        }
        // counted from the Monday 00:00 before the stream began, as the week's seconds are
        let second = start + time.floor() as u64;
        let day = second / DAY_S - start / DAY_S;
        let minute = (second / MINUTE_S % u64::from(WEEK_MINUTES)) as u16;
        let is_closed = self.closed.iter().any(|&date| u64::from(date) == day);
        !is_closed && self.windows.iter().any(|window| window.has(minute))
    }
}

#[cfg(test)]
mod tests {
    use std::cmp::Ordering;

    use super::*;

    const MINUTE: f64 = 60.0;
    const DAY: f64 = 86_400.0;
    const WEEK: f64 = 604_800.0;
    const WHOLE_WEEK: &[(u16, u16)] = &[(0, 0)];

    fn shifts(start: u32, windows: &[(u16, u16)], closed: &[u32]) -> Shifts {
        Shifts {
            start: Some(start),
            windows: windows.iter().map(|&(start, end)| Window { start, end }).collect(),
            closed: closed.to_vec(),
        }
    }

    /// The marks of messages at these times.
    fn marks<const N: usize>(shifts: &Shifts, times: [f64; N]) -> [u8; N] {
        times.map(|time| shifts.mark(time))
    }

    /// "0 where no start second was given", on a closed date and outside all windows too.
    #[test]
    fn no_start_second() {
        for (windows, closed) in [(WHOLE_WEEK, &[][..]), (&[], &[]), (WHOLE_WEEK, &[0])] {
            let none = Shifts {
                start: None,
                ..shifts(0, windows, closed)
            };
            assert_eq!(marks(&none, [0.0, -1.0, 1e11, f64::NAN]), [0; 4]);
        }
    }

    /// "the second of the week at which the stream began (Monday 00:00 is 0)": window 1 to 2 is Monday's second minute.
    #[test]
    fn start_second() {
        let times = [0.0, 1.0, 2.0, 60.0, 61.0, 62.0];
        assert_eq!(marks(&shifts(0, &[(1, 2)], &[]), times), [2, 2, 2, 1, 1, 1]);
        assert_eq!(marks(&shifts(59, &[(1, 2)], &[]), times), [2, 1, 1, 1, 2, 2]);
        assert_eq!(marks(&shifts(60, &[(1, 2)], &[]), times), [1, 1, 1, 2, 2, 2]);
        assert_eq!(marks(&shifts(604_799, &[(1, 2)], &[]), times), [2, 2, 2, 2, 1, 1]);
        assert_eq!(marks(&shifts(604_799, &[(0, 1)], &[]), times), [2, 1, 1, 1, 2, 2]);
    }

    /// "by its time, rounded down to a second": also where the start second is one before the edge.
    #[test]
    fn rounded_down() {
        let edge = [59.0, 60f64.next_down(), 60.0, 60f64.next_up(), 119.9, 120.0];
        assert_eq!(marks(&shifts(0, &[(1, 2)], &[]), edge), [2, 2, 1, 1, 1, 2]);
        assert_eq!(
            marks(&shifts(59, &[(1, 2)], &[]), [0.0, 0.999, 1f64.next_down(), 1.0]),
            [2, 2, 2, 1]
        );
    }

    /// "The start minute belongs to the window, the end minute doesn't"
    #[test]
    fn ends_of_a_window() {
        let times = [7.0, 8.0, 9.0, 10.0, 11.0].map(|minute| minute * MINUTE);
        assert_eq!(marks(&shifts(0, &[(8, 10)], &[]), times), [2, 1, 1, 2, 2]);
        assert_eq!(marks(&shifts(0, &[(8, 9)], &[]), times), [2, 1, 2, 2, 2]);
        let last = [10_078.0, 10_079.0, 10_080.0].map(|minute| minute * MINUTE);
        assert_eq!(marks(&shifts(0, &[(10_078, 10_079)], &[]), last), [1, 2, 2]);
    }

    /// "an end before the start runs over Sunday midnight"
    #[test]
    fn over_sunday_midnight() {
        let times = [10_077.0, 10_078.0, 10_079.0, 10_080.0, 10_081.0, 10_082.0].map(|minute| minute * MINUTE);
        assert_eq!(marks(&shifts(0, &[(10_078, 2)], &[]), times), [2, 1, 1, 1, 1, 2]);
        assert_eq!(marks(&shifts(0, &[(10_079, 0)], &[]), times), [2, 2, 1, 2, 2, 2]);
        assert_eq!(marks(&shifts(0, &[(1, 0)], &[]), times), [1, 1, 1, 2, 1, 1]);
    }

    /// "equal ends mean the whole week"
    #[test]
    fn equal_ends() {
        for minute in [0, 1, 5000, 10_079] {
            let equal = shifts(0, &[(minute, minute)], &[]);
            let all = (0..10_080).all(|m| equal.mark(f64::from(m) * MINUTE) == 1);
            assert!(all, "{minute}");
        }
    }

    /// The walk against a comparison of minutes, at and beside every end.
    #[test]
    fn the_walk() {
        let minutes = [0, 1, 2, 3, 5038, 5039, 5040, 5041, 10_077, 10_078, 10_079];
        let pairs = minutes.iter().flat_map(|&a| minutes.map(|b| (a, b)));
        for ((start, end), minute) in pairs.flat_map(|pair| minutes.map(|m| (pair, m))) {
            let within = match start.cmp(&end) {
                Ordering::Less => start <= minute && minute < end,
                Ordering::Equal => true,
                Ordering::Greater => start <= minute || minute < end,
            };
            assert_eq!(Window { start, end }.has(minute), within, "{start} to {end}, {minute}");
        }
    }

    /// A week later the windows are the same.
    #[test]
    fn every_week() {
        let monday = shifts(604_700, &[(0, 1)], &[]);
        let times = [99.0, 100.0, 159.0, 160.0];
        for week in [0.0, 1.0, 2.0, 16_533.0] {
            assert_eq!(marks(&monday, times.map(|s| s + week * WEEK)), [2, 1, 1, 2]);
        }
    }

    /// Each window is looked at, and without one every message is outside.
    #[test]
    fn windows_by_number() {
        assert_eq!(marks(&shifts(0, &[], &[]), [0.0, 60.0, 1e10]), [2; 3]);
        let mut windows = [(7, 8); 32];
        for place in [0, 1, 30, 31] {
            windows[place] = (3, 4);
            assert_eq!(marks(&shifts(0, &windows, &[]), [3.0 * MINUTE, 4.0 * MINUTE]), [1, 2]);
            windows[place] = (7, 8);
        }
    }

    /// "On a closed date, listed as a day number from the stream's first day (0, until its midnight), every message is outside."
    #[test]
    fn closed_dates() {
        let times = [0.0, DAY - 1.0, DAY, 2.0 * DAY - 1.0, 2.0 * DAY];
        assert_eq!(marks(&shifts(0, WHOLE_WEEK, &[0]), times), [2, 2, 1, 1, 1]);
        assert_eq!(marks(&shifts(0, WHOLE_WEEK, &[1]), times), [1, 1, 2, 2, 1]);
        assert_eq!(marks(&shifts(0, WHOLE_WEEK, &[0, 2]), times), [2, 2, 1, 1, 2]);
        assert_eq!(marks(&shifts(0, WHOLE_WEEK, &[0, 1, 2]), times), [2; 5]);
        assert_eq!(marks(&shifts(0, &[(0, 1)], &[u32::MAX]), times), [1, 2, 2, 2, 2]);
    }

    /// The first day lasts until its midnight, on each day of the week; from the last second on, one second.
    #[test]
    fn first_day() {
        for weekday in 0..7 {
            let last = shifts(86_400 * weekday + 86_399, WHOLE_WEEK, &[0]);
            assert_eq!(
                marks(&last, [0.0, 1f64.next_down(), 1.0, DAY, DAY + 1.0]),
                [2, 2, 1, 1, 1]
            );
            let next = shifts(86_400 * weekday + 86_399, WHOLE_WEEK, &[1]);
            assert_eq!(marks(&next, [0.0, 1.0, DAY, DAY + 1.0]), [1, 2, 2, 1]);
            let whole = shifts(86_400 * weekday, WHOLE_WEEK, &[0]);
            assert_eq!(marks(&whole, [0.0, DAY - 1.0, DAY]), [2, 2, 1]);
        }
    }

    /// The day is that of the time as rounded down; days don't begin anew with the week.
    #[test]
    fn days_go_on() {
        let seventh = shifts(0, WHOLE_WEEK, &[7]);
        let times = [0.0, WEEK.next_down(), WEEK, WEEK + DAY - 0.5, WEEK + DAY];
        assert_eq!(marks(&seventh, times), [1, 1, 2, 2, 1]);
        // 10^10 s are 115,740 days and 64,000 s
        assert_eq!(shifts(22_399, WHOLE_WEEK, &[115_740]).mark(1e10), 2);
        assert_eq!(shifts(22_400, WHOLE_WEEK, &[115_740]).mark(1e10), 1);
        assert_eq!(shifts(22_400, WHOLE_WEEK, &[115_741]).mark(1e10), 2);
    }

    /// "So is a message whose time is not from 0 to 10^10 s."
    #[test]
    fn times() {
        let all = shifts(604_799, WHOLE_WEEK, &[]);
        let least = f64::from_bits(1);
        assert_eq!(marks(&all, [0.0, -0.0, least, 1e10, 1e10f64.next_down()]), [1; 5]);
        assert_eq!(marks(&all, [-least, -0.5, -1.0, f64::MIN, f64::NEG_INFINITY]), [2; 5]);
        assert_eq!(
            marks(&all, [1e10f64.next_up(), 1e10 + 1.0, 1e300, f64::MAX, f64::INFINITY]),
            [2; 5]
        );
        assert_eq!(marks(&all, [f64::NAN, -f64::NAN]), [2; 2]);
        // -0 is 0
        assert_eq!(shifts(60, &[(1, 2)], &[]).mark(-0.0), 1);
        assert_eq!(shifts(60, &[(0, 1)], &[]).mark(-0.0), 2);
    }

    /// The causes of 11, each at both sides of its limit; they are looked at without a start second too.
    #[test]
    fn causes() {
        let refused = |start: Option<u32>, windows: &[(u16, u16)], closed: &[u32]| {
            let shifts = Shifts {
                start,
                ..shifts(0, windows, closed)
            };
            match shifts.check() {
                Ok(()) => false,
                Err(number) => number == 11,
            }
        };
        for (second, is_refused) in [(0, false), (604_799, false), (604_800, true), (u32::MAX, true)] {
            assert_eq!(refused(Some(second), &[], &[]), is_refused, "second {second}");
        }
        for start in [None, Some(0)] {
            for (minute, is_refused) in [(0, false), (10_079, false), (10_080, true), (u16::MAX, true)] {
                assert_eq!(
                    refused(start, &[(0, 1), (minute, 5)], &[]),
                    is_refused,
                    "start {minute}"
                );
                assert_eq!(refused(start, &[(5, minute), (0, 1)], &[]), is_refused, "end {minute}");
            }
            for (count, is_refused) in [(0, false), (1, false), (32, false), (33, true), (255, true)] {
                assert_eq!(refused(start, &vec![(1, 2); count], &[]), is_refused, "{count} windows");
            }
            for closed in [&[][..], &[0], &[u32::MAX], &[0, 1], &[3, 5, u32::MAX]] {
                assert!(!refused(start, &[], closed), "{closed:?}");
            }
            for closed in [&[0, 0][..], &[1, 0], &[1, 2, 2], &[0, 2, 1, 3], &[u32::MAX, 0]] {
                assert!(refused(start, &[], closed), "{closed:?}");
            }
        }
    }
}
