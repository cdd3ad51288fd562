//! Edges of the shifts: start seconds, windows, closed dates, times, and which call marks a message.

use super::blocks::{LATEST_S, MOST_DATES, Shifts, WEEK_MINUTES};
use super::given::state;
use super::shifted;
use crate::generate::Case;
use crate::generate::events::given::Waiting;
use crate::generate::events::{self, Calls, HEADER, envelope, two_bytes};
use crate::generate::given::{LEAST, not_finite};
use crate::generate::rng::Rng;
use crate::generate::signal::Air;

/// Samples a second of all cases but those of a bad rate and those of `events`.
pub const RATE: u32 = 200;
const DAY: f64 = 86_400.0;
const WEEK: f64 = 604_800.0;
/// The most messages that wait.
const MOST_WAITING: usize = 40;

pub fn directed() -> Vec<Case> {
    let mut cases = small();
    bad_rates(&mut cases);
    cut_blocks(&mut cases);
    every_start(&mut cases);
    let mut rng = Rng::new(3);
    cases.extend(events::directed().iter().map(|case| shifted(&mut rng, case)));
    cases
}

/// The edges that need few bytes, all at one rate, none cut short.
pub fn small() -> Vec<Case> {
    let mut cases = vec![];
    examples(&mut cases);
    starts(&mut cases);
    windows(&mut cases);
    counts(&mut cases);
    minutes(&mut cases);
    closed(&mut cases);
    times(&mut cases);
    calls(&mut cases);
    streams(&mut cases);
    causes(&mut cases);
    cases
}

/// Messages of frame 1 alone that began at these times.
fn messages(times: &[f64]) -> Vec<Waiting> {
    let message = |(number, &time): (usize, &f64)| Waiting::plain(number as u8, time, (time * f64::from(RATE)) as u64);
    times.iter().enumerate().map(message).collect()
}

/// Messages at these times, and a flush that marks them.
fn flushed(calls: Calls, times: &[f64], shifts: &Shifts) -> Calls {
    times.chunks(MOST_WAITING).fold(calls, |calls, times| {
        calls.given(&state(0, messages(times))).flush().shifts(shifts)
    })
}

fn flush(label: impl Into<String>, times: &[f64], shifts: &Shifts) -> Case {
    flushed(Calls::new(RATE), times, shifts).case(label)
}

/// The examples of the client's formats, one run.
fn examples(cases: &mut Vec<Case>) {
    let heard = |times: &[f64]| {
        let messages = messages(times).into_iter();
        state(0, messages.map(|message| message.deep(0x28)).collect())
    };
    let calls = Calls::new(RATE);
    let calls = calls.given(&heard(&[0.0, 59.9, 60.0]));
    let calls = calls.flush().shifts(&Shifts::new(0, &[(1, 2)], &[]));
    let calls = calls.given(&heard(&[9.5, 10.0, 70.0]));
    let calls = calls.flush().shifts(&Shifts::new(604_790, &[(10_079, 0)], &[]));
    let calls = calls.given(&heard(&[9.0, 10.0]));
    let calls = calls.flush().shifts(&Shifts::new(86_390, &[(5, 5)], &[1]));
    let calls = calls.given(&heard(&[4.0]));
    let calls = calls.flush().shifts(&Shifts::new(0, &[(5, 5)], &[]).not_given());
    let calls = calls.push(&[-100.0]).shifts(&Shifts::new(3, &[(0, 10_080)], &[]));
    cases.push(calls.case("examples"));
}

/// Start seconds at the ends of their range, beside minutes and midnights; without one its bytes aren't read.
fn starts(cases: &mut Vec<Case>) {
    let first = [0.0, 0.5, 1f64.next_down(), 1.0];
    for start in [0, 1, 59, 60, 86_399, 86_400, 604_799, 604_800, 604_801, u32::MAX] {
        let shifts = Shifts::new(start, &[(0, 1)], &[]);
        cases.push(flush(format!("start {start}"), &first, &shifts));
        cases.push(flush(
            format!("start {start}, not given"),
            &first[3..],
            &shifts.not_given(),
        ));
    }
}

/// Times at and beside both ends of a window, for a stream that began at this second.
fn about(start: u32, (from, to): (u16, u16)) -> Vec<f64> {
    let mut times = vec![];
    for minute in [from, to] {
        let edge = (f64::from(minute) * 60.0 - f64::from(start)).rem_euclid(WEEK);
        times.extend([edge.next_down(), edge, edge + 59.5, edge + 60.0]);
    }
    times
}

const WINDOWS: [(u16, u16); 14] = [
    (0, 1),
    (1, 2),
    (8, 10),
    (0, 10_079),
    (10_078, 10_079),
    (10_079, 0),
    (10_079, 1),
    (10_079, 10_078),
    (5000, 3),
    (2, 1),
    (1, 0),
    (0, 0),
    (7, 7),
    (10_079, 10_079),
];

/// Both ends of every window.
fn windows(cases: &mut Vec<Case>) {
    let starts = [0, 604_799, 1, 345_678, 59];
    for (window, &start) in WINDOWS.into_iter().zip(starts.iter().cycle()) {
        let label = format!("window {window:?} from {start}");
        cases.push(flush(label, &about(start, window), &Shifts::new(start, &[window], &[])));
    }
    let three = Shifts::new(0, &[(3, 5), (4, 6), (9, 2)], &[]);
    let times: Vec<f64> = (0..11).map(|minute| f64::from(minute) * 60.0).collect();
    cases.push(flush("windows that overlap", &times, &three));
}

/// The same from every kind of start second, in the first week and in the last whole one.
fn every_start(cases: &mut Vec<Case>) {
    let last_week = (LATEST_S / WEEK).floor() - 1.0;
    for window in WINDOWS {
        for start in [0, 1, 59, 60, 86_399, 345_678, 604_740, 604_799] {
            let mut times = about(start, window);
            let later: Vec<f64> = times.iter().map(|time| time + last_week * WEEK).collect();
            times.extend(later);
            let label = format!("window {window:?} from {start}, two weeks");
            cases.push(flush(label, &times, &Shifts::new(start, &[window], &[])));
        }
    }
}

/// As many windows as are allowed, and more; the first or the last decides.
fn counts(cases: &mut Vec<Case>) {
    for count in [0, 1, 31, 32, 33, 200, 255usize] {
        for place in [0, count.saturating_sub(1)] {
            let mut windows = vec![(7, 8); count];
            if let Some(window) = windows.get_mut(place) {
                *window = (3, 4);
            }
            let shifts = Shifts::new(0, &windows, &[]);
            cases.push(flush(format!("{count} windows, {place}"), &[180.0, 240.0], &shifts));
        }
        let none = Shifts::new(0, &vec![(0, 0); count], &[]).not_given();
        cases.push(flush(format!("{count} windows, no start"), &[180.0], &none));
    }
}

/// Minutes at and beside the week's last, in each place; a later flush shows that the refused ones changed nothing.
fn minutes(cases: &mut Vec<Case>) {
    for minute in [WEEK_MINUTES - 1, WEEK_MINUTES, WEEK_MINUTES + 1, u16::MAX] {
        let mut calls = Calls::new(RATE).given(&state(0, messages(&[0.0, 60.0])));
        for place in 0..3 {
            for window in [(minute, 5), (5, minute)] {
                let mut shifts = Shifts::new(0, &[(1, 2); 3], &[]);
                shifts.windows[place] = window;
                calls = calls.flush().shifts(&shifts.not_given()).flush().shifts(&shifts);
            }
        }
        let calls = calls.flush().shifts(&Shifts::new(0, &[(1, 2)], &[]));
        cases.push(calls.case(format!("minute {minute}")));
    }
    // the 33rd window is bad too, and those that a program reads over
    let mut many = vec![(1, 2); 40];
    many[32] = (WEEK_MINUTES, 0);
    many[39] = (0, u16::MAX);
    cases.push(flush("40 windows", &[60.0], &Shifts::new(0, &many, &[])));
}

/// Closed dates on both sides of midnights, from the first second of a day and from its last.
fn closed(cases: &mut Vec<Case>) {
    for start in [0, 86_399, 604_799] {
        let midnight = DAY - f64::from(start % 86_400);
        let times = [
            0.0,
            midnight.next_down(),
            midnight,
            midnight + DAY - 0.5,
            midnight + DAY,
        ];
        for dates in [&[][..], &[0], &[1], &[0, 2], &[0, 1, 2]] {
            let shifts = Shifts::new(start, &[(0, 0)], dates);
            cases.push(flush(format!("closed {dates:?} from {start}"), &times, &shifts));
        }
    }
    let bad: [&[u32]; 8] = [
        &[0, 0],
        &[1, 0],
        &[1, 1],
        &[5, 3, 7],
        &[3, 5, 5],
        &[3, 7, 5],
        &[u32::MAX, 0],
        &[u32::MAX, u32::MAX],
    ];
    let mut calls = Calls::new(RATE).given(&state(0, messages(&[0.0, DAY])));
    for dates in bad {
        let shifts = Shifts::new(0, &[(0, 0)], dates);
        calls = calls.flush().shifts(&shifts.not_given()).flush().shifts(&shifts);
    }
    let calls = calls.flush().shifts(&Shifts::new(0, &[(0, 0)], &[1, u32::MAX]));
    cases.push(calls.case("closed dates that don't rise"));
    many_dates(cases);
}

/// As many dates as a program is handed, and the last day of all.
fn many_dates(cases: &mut Vec<Case>) {
    let mut dates: Vec<u32> = (0..MOST_DATES as u32).map(|i| 2 * i + 1).collect();
    let times = [0.0, DAY, 127.0 * DAY, 128.0 * DAY, 129.0 * DAY];
    cases.push(flush("64 dates", &times, &Shifts::new(0, &[(0, 0)], &dates)));
    dates[MOST_DATES - 1] = dates[MOST_DATES - 2];
    cases.push(flush(
        "64 dates, two equal",
        &times[..1],
        &Shifts::new(0, &[(0, 0)], &dates),
    ));
    // 10^10 s are 115,740 days and 64,000 s
    for start in [22_399, 22_400, 604_799] {
        for date in [115_740, 115_741] {
            let shifts = Shifts::new(start, &[(0, 0)], &[date]);
            let times = [LATEST_S.next_down(), LATEST_S];
            cases.push(flush(format!("date {date} from {start}"), &times, &shifts));
        }
    }
}

/// Times at the ends of what can be inside, and beyond; none is a NaN.
pub fn odd_times() -> Vec<f64> {
    let mut times = vec![0.0, -0.0, LEAST, -LEAST, -0.5, -1.0, -WEEK, f64::MIN];
    times.extend([LATEST_S.next_down(), LATEST_S, LATEST_S.next_up(), LATEST_S + 1.0]);
    times.extend([LATEST_S + WEEK, 4_294_967_296.0, 1.9e19, 1e300, f64::MAX]);
    times.extend([f64::INFINITY, f64::NEG_INFINITY]);
    times
}

fn times(cases: &mut Vec<Case>) {
    let times = odd_times();
    cases.push(flush("odd times, whole week", &times, &Shifts::whole_week(604_799)));
    cases.push(flush(
        "odd times, the first minute",
        &times,
        &Shifts::new(0, &[(0, 1)], &[]),
    ));
    cases.push(flush(
        "odd times, day 0 closed",
        &times,
        &Shifts::new(0, &[(0, 0)], &[0]),
    ));
    cases.push(flush("odd times, no start", &times, &Shifts::whole_week(0).not_given()));
    for time in not_finite().into_iter().filter(|time| time.is_nan()) {
        let label = format!("time {:016x}", time.to_bits());
        cases.push(flush(label, &[1.0, time], &Shifts::whole_week(0)));
    }
}

/// A message has the mark of the call that writes it, whatever byte 34 held, and whatever calls before were given.
fn calls(cases: &mut Vec<Case>) {
    let outside = Shifts::new(0, &[], &[]);
    let inside = Shifts::whole_week(0);
    let waits = |last: f64| {
        let messages = messages(&[1.0, 2.0]).into_iter().zip([1, 255]);
        let messages = messages.map(|(message, spare)| message.joined(last).spare(34, &[spare]));
        state(11 * u64::from(RATE), messages.collect())
    };
    for shifts in [&outside, &inside, &inside.not_given()] {
        let calls = Calls::new(RATE);
        let calls = calls.given(&waits(1.0)).push(&[-110.0]).shifts(shifts);
        let calls = calls.given(&waits(1.0)).push_raw(&[220]).shifts(shifts);
        let calls = calls.given(&waits(5.0)).push(&[-110.0]).shifts(&inside);
        let calls = calls.push_raw(&[220]).shifts(&outside);
        cases.push(calls.flush().shifts(shifts).case("the call that writes"));
    }
}

/// A frame heard 10 s after the start, sample by sample about a window's edge or a midnight.
fn streams(cases: &mut Vec<Case>) {
    let shifts = [
        Shifts::new(50, &[(1, 2)], &[]),
        Shifts::new(604_790, &[(10_079, 0)], &[]),
        Shifts::new(86_390, &[(0, 0)], &[1]),
    ];
    for at in 1998..=2002 {
        let mut air = Air::quiet(RATE, 2450, -110.0);
        air.send(at, &envelope(&two_bytes(1), 0, RATE, -60.0));
        let raw = air.raw();
        let these = &shifts[at % 3];
        let calls = Calls::new(RATE).given(&state(0, vec![]));
        let calls = calls.push_raw(&raw[..1200]).shifts(these);
        let calls = calls.push_raw(&raw[1200..]).shifts(these);
        cases.push(calls.flush().shifts(these).case(format!("a frame from sample {at}")));
    }
    let mut air = Air::quiet(RATE, 2700, -110.0);
    air.send(100, &envelope(&two_bytes(1), 0, RATE, -60.0));
    let calls = Calls::new(RATE).given(&state(0, vec![]));
    let pushed = |calls: Calls, raw: &[u8]| calls.push_raw(raw).shifts(&Shifts::whole_week(0));
    let calls = air.raw().chunks(900).fold(calls, pushed);
    cases.push(calls.case("a message 10 s after its frame"));
}

/// Shifts with each cause of 11 alone.
fn bad_shifts() -> Vec<Shifts> {
    let good = Shifts::whole_week(0);
    let mut bad = vec![good.clone(); 6];
    bad[0].start = 604_800;
    bad[1].windows[0].0 = WEEK_MINUTES;
    bad[2].windows[0].1 = WEEK_MINUTES;
    bad[3].windows = vec![(0, 0); 33];
    bad[4].closed = vec![1, 1];
    bad[5].closed = vec![2, 1];
    bad
}

/// 11 beside every lower cause: the lower number is answered, and nothing changes.
fn causes(cases: &mut Vec<Case>) {
    let longest = 12 * RATE as usize;
    let good = Shifts::whole_week(0);
    let mut all = bad_shifts();
    all.push(good.clone());
    let waits = state(0, messages(&[1.0]));
    let mut out_of_order = waits.clone();
    out_of_order.unscanned = RATE.div_ceil(2);
    let mut not_a_number = waits.clone();
    not_a_number.waiting.extend(messages(&[0.0, f64::NAN]).pop());
    let mut end_of_stream = waits.clone();
    end_of_stream.base = 1 << 40;
    for (i, shifts) in all.iter().enumerate() {
        let mut calls = Calls::new(RATE).given(&waits);
        calls = calls.push(&[-110.0, f32::NAN]).shifts(shifts);
        if i == 0 {
            calls = calls.push_raw(&vec![200; longest + 1]).shifts(shifts);
        }
        calls = calls
            .push(&[-110.0])
            .shifts(shifts)
            .push_raw(&[220, 220])
            .shifts(shifts);
        calls = calls.push(&[]).shifts(shifts).flush().shifts(shifts);
        calls = calls.push(&[-110.0]).shifts(&good).flush().shifts(&good);
        for state in [&out_of_order, &not_a_number, &end_of_stream] {
            calls = calls.given(state).push(&[-110.0]).shifts(shifts);
            calls = calls.push_raw(&[220]).shifts(shifts).flush().shifts(shifts);
        }
        cases.push(calls.case(format!("causes, shifts {i}")));
    }
}

/// 1 comes first.
fn bad_rates(cases: &mut Vec<Case>) {
    for rate in [0, 199, 4001, u32::MAX] {
        for shifts in bad_shifts().into_iter().chain([Shifts::whole_week(0)]) {
            let calls = Calls::new(rate).push(&[f32::NAN]).shifts(&shifts);
            let calls = calls.push_raw(&[1, 2]).shifts(&shifts).flush().shifts(&shifts);
            cases.push(calls.case(format!("rate {rate}")));
        }
    }
}

/// A flush with a window and a closed date.
pub fn whole() -> Calls {
    Calls::new(RATE).flush().shifts(&Shifts::new(1, &[(2, 3)], &[4]))
}

/// What stands behind a call, cut short in each place.
fn cut_blocks(cases: &mut Vec<Case>) {
    let whole = whole().case("a flush").bytes;
    for length in HEADER + 1..whole.len() {
        cases.push(Case {
            label: format!("{length} bytes"),
            bytes: whole[..length].to_vec(),
            short: true,
        });
    }
    cases.push(self::whole().case("a whole one"));
}
