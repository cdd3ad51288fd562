//! 01's table of causes, as far as a replay can meet them: each test gives its number where it fails.
//! A call makes its tests in the order of the numbers.

pub type Checked = Result<(), u8>;

pub const BUFFER_S: usize = 12;
/// The sample limit of a call without a rate: that of the highest one.
pub const MOST_SAMPLES: usize = BUFFER_S * 4000;
pub const MOST_READINGS: usize = 4096;
pub const MOST_BITS: usize = 1024;
pub const LONGEST_STREAM: usize = 1 << 40;
/// Request 05: places of f64 scratch, for the dips and their depths.
pub const SCRATCH64: usize = 6000;
/// Places of the programs' lists.
pub const READINGS_HELD: usize = 8000;
pub const TUNINGS_HELD: usize = 64;
/// Characters of a line of `uplink`.
pub const MOST_LINE: usize = 512;

fn check(holds: bool, number: u8) -> Checked {
    if holds { Ok(()) } else { Err(number) }
}

pub fn rate(rate: u32) -> Checked {
    check((200..=4000).contains(&rate), 1)
}

/// The scratch is long enough.
pub fn scratch(holds: bool) -> Checked {
    check(holds, 2)
}

/// A lent slice has the places that the call needs.
pub fn lent(n: usize, places: usize) -> Checked {
    check(places <= n, 2)
}

pub fn at_most(n: usize, most: usize) -> Checked {
    check(n <= most, 3)
}

/// At most 12 s of samples.
pub fn sample_count(n: usize, rate: u32) -> Checked {
    at_most(n, BUFFER_S * rate as usize)
}

pub fn samples(dbm: &[f32]) -> Checked {
    check(dbm.iter().all(is_dbm), 4)
}

pub fn order(in_order: bool) -> Checked {
    check(in_order, 5)
}

pub fn stream(samples: usize) -> Checked {
    check(samples <= LONGEST_STREAM, 7)
}

/// A list of the tracker has room for this many entries.
pub fn room(entries: usize, places: usize) -> Checked {
    check(entries <= places, 8)
}

pub fn number(holds: bool) -> Checked {
    check(holds, 9)
}

/// Request 01: an uplink that a frame carries.
pub fn uplink(holds: bool) -> Checked {
    check(holds, 10)
}

/// Request 03: a start second, windows and closed dates.
pub fn shifts(holds: bool) -> Checked {
    check(holds, 11)
}

/// Request 09: a list of event records.
pub fn records(holds: bool) -> Checked {
    check(holds, 12)
}

/// Request 09: at most 256 devices.
pub fn devices(holds: bool) -> Checked {
    check(holds, 13)
}

/// No NaN lies in a range.
fn is_dbm(v: &f32) -> bool {
    (-200.0..=100.0).contains(v)
}

pub fn floor(v: f32) -> Checked {
    number(is_dbm(&v))
}

pub fn above(db: f64) -> Checked {
    number((0.0..=100.0).contains(&db))
}

pub fn milliseconds(ms: f64) -> Checked {
    number((0.0..=10_000.0).contains(&ms))
}

pub fn step(hz: f64) -> Checked {
    number(hz > 0.0 && hz <= 10_000.0)
}

pub fn time(s: f64) -> Checked {
    number((-1e9..=1e9).contains(&s))
}

/// Request 11: a time or a distance in seconds.
pub fn seconds(holds: bool) -> Checked {
    check(holds, 14)
}

pub fn burst_index(i: u64) -> Checked {
    number(i <= LONGEST_STREAM as u64)
}

pub fn rank(rank: u8) -> Checked {
    number(rank <= 2)
}

/// Request 13: a plan and the month's start.
pub fn plan(holds: bool) -> Checked {
    check(holds, 15)
}

/// Request 13: a message's time.
pub fn in_month(holds: bool) -> Checked {
    check(holds, 16)
}

/// Bytes of bits as bits.
pub fn bits(bytes: &[u8]) -> Result<Vec<bool>, u8> {
    number(bytes.iter().all(|&b| b <= 1))?;
    Ok(bytes.iter().map(|&b| b == 1).collect())
}
