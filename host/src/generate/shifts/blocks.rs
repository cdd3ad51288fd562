//! What stands behind a call's arguments: a start second, windows and closed dates.

use crate::generate::events::Calls;
use crate::generate::rng::Rng;

pub const DAY_S: u64 = 86_400;
pub const WEEK_S: u64 = 604_800;
pub const WEEK_MINUTES: u16 = 10_080;
/// The latest time of a message that can be inside.
pub const LATEST_S: f64 = 1e10;
/// The most closed dates that a program is handed.
pub const MOST_DATES: usize = 64;
/// Seconds of the longest random stream.
const STREAM_S: usize = 45;

/// What stands behind a call's arguments.
#[derive(Clone)]
pub struct Shifts {
    pub given: bool,
    /// Not read where it isn't given
    pub start: u32,
    pub windows: Vec<(u16, u16)>,
    pub closed: Vec<u32>,
}

impl Shifts {
    pub fn new(start: u32, windows: &[(u16, u16)], closed: &[u32]) -> Self {
        Self {
            given: true,
            start,
            windows: windows.to_vec(),
            closed: closed.to_vec(),
        }
    }

    pub fn whole_week(start: u32) -> Self {
        Self::new(start, &[(0, 0)], &[])
    }

    /// The same without its start second, whose bytes stay.
    pub fn not_given(&self) -> Self {
        Self {
            given: false,
            ..self.clone()
        }
    }
}

impl Calls {
    pub fn shifts(self, s: &Shifts) -> Self {
        let put = self.0.u8(s.given.into()).u32(s.start).u8(s.windows.len() as u8);
        let put = s.windows.iter().fold(put, |put, &(start, end)| put.u16(start).u16(end));
        let put = put.u16(s.closed.len() as u16);
        Self(s.closed.iter().fold(put, |put, &date| put.u32(date)))
    }
}

/// Shifts that aren't refused, whose edges lie about this second of the stream.
pub fn near(rng: &mut Rng, second: u64) -> Shifts {
    let start = start_near(rng, second);
    let at = start + second;
    let minute = at / 60;
    let edge = |rng: &mut Rng| {
        let anywhere = rng.below(WEEK_MINUTES.into()) as u64;
        let edges = [minute, minute + 1, minute + 2, minute + 10_079, 0, 10_079, anywhere];
        (rng.pick(&edges) % u64::from(WEEK_MINUTES)) as u16
    };
    let windows = rng.pick(&[0, 1, 1, 2, 2, 3, 3, 5, 31, 32]);
    // so many windows would leave few messages outside, were they long
    let short = windows > 5;
    let window = |_| {
        let start = edge(rng);
        let end = if short { (start + 1) % WEEK_MINUTES } else { edge(rng) };
        (start, end)
    };
    let windows: Vec<(u16, u16)> = (0..windows).map(window).collect();
    let day = at / DAY_S - start / DAY_S;
    let closed = dates(rng, day as u32);
    Shifts {
        given: rng.chance(0.9),
        ..Shifts::new(start as u32, &windows, &closed)
    }
}

/// A start second: an end of its range, any, or one from which a minute or a day begins soon after this second.
fn start_near(rng: &mut Rng, second: u64) -> u64 {
    let anywhere = rng.next() % WEEK_S;
    let soon = second + rng.below(STREAM_S) as u64;
    let before = |unit: u64| (anywhere / unit * unit + unit - soon % unit) % WEEK_S;
    rng.pick(&[
        0,
        WEEK_S - 1,
        DAY_S - 1,
        anywhere,
        before(60),
        before(60),
        before(DAY_S),
        before(WEEK_S),
    ])
}

/// Closed dates that rise, some about this day.
fn dates(rng: &mut Rng, day: u32) -> Vec<u32> {
    let anywhere = rng.next() as u32;
    let about = [0, 1, day.saturating_sub(1), day, day, day + 1, anywhere, u32::MAX];
    let count = rng.pick(&[0, 0, 0, 1, 1, 2, 3, MOST_DATES]);
    let mut dates: Vec<u32> = match count {
        MOST_DATES => (0..MOST_DATES).map(|_| rng.below(120_000) as u32).collect(),
        _ => (0..count).map(|_| rng.pick(&about)).collect(),
    };
    dates.sort_unstable();
    dates.dedup();
    dates
}

/// The shifts with one cause of 11; a start second that isn't given is none.
pub fn spoiled(rng: &mut Rng, s: &Shifts) -> Shifts {
    let mut t = s.clone();
    let minute = rng.pick(&[WEEK_MINUTES, WEEK_MINUTES + 1, u16::MAX]);
    let anywhere = rng.next() as u32;
    let date = anywhere / 2;
    match rng.below(5) {
        0 => t.start = rng.pick(&[WEEK_S as u32, u32::MAX, anywhere | 1 << 20]),
        1 => t.windows.insert(0, (minute, 5)),
        2 => t.windows.push((0, minute)),
        3 => t.windows = vec![(0, 0); rng.pick(&[33, 34, 200, 255])],
        _ => t.closed = vec![date, date.saturating_sub(rng.pick(&[0, 0, 1, date]))],
    }
    t
}
