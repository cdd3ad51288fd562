//! The depth of dips (request 05), from 02's text; the Rust has none. Dips and points of the clock are found here once more, with
//! their depths, and must be the Rust's.

use std::f64::consts::PI;

use crate::rust::demod::{burst_bits, find_dips};
use crate::trig;

/// Fewer dips, or fewer points of the clock, give no bits.
const FEWEST: usize = 8;
/// So many dips decide where the clock's grid starts.
const ANCHORS: usize = 12;
/// With so many points the clock is fitted to them.
const FITTED: usize = 4;
/// 01: a bit index beyond it gives no bits.
const FARTHEST_BIT: f64 = 2_147_483_648.0;
const MOST_BYTE: f64 = 255.0;

/// "Each dip carries its depth"
#[derive(Clone, Copy, Debug, PartialEq)]
pub struct Dip {
    /// Its middle, in samples
    pub at: f64,
    pub depth: f64,
}

/// "a burst's bits carry the median of its accepted dips"
#[derive(Clone, Copy, Debug, PartialEq)]
pub struct Median {
    pub points: usize,
    pub depth: f64,
}

/// The samples that a frame was decoded from.
#[derive(Clone, Debug, PartialEq)]
pub struct Segment {
    rate: u32,
    dbm: Vec<f32>,
}

/// What byte 33 of a message's record is made of.
#[derive(Clone, Debug, PartialEq)]
pub enum First {
    /// "a message has its first frame's": the frame that opened it
    Frame(Segment),
    /// Byte 33 of a message that was handed in
    Given(u8),
}

impl Segment {
    pub fn new(dbm: &[f32], rate: u32) -> Self {
        let dbm = dbm.to_vec();
        Self { rate, dbm }
    }

    /// Byte 33 of the frame's record.
    pub fn byte(&self) -> u8 {
        byte(of_burst(&self.dbm, self.rate).expect("a frame has bits").depth)
    }
}

impl First {
    pub fn byte(&self) -> u8 {
        match self {
            Self::Frame(segment) => segment.byte(),
            Self::Given(byte) => *byte,
        }
    }
}

/// "Event byte 33 gives it in half decibels, rounded down, 255 if more"
pub fn byte(depth: f64) -> u8 {
    (2.0 * depth).floor().min(MOST_BYTE) as u8
}

/// The dips of a segment; the Rust's are at the same places.
pub fn dips(seg: &[f32], rate: u32, level: f64) -> Vec<Dip> {
    let middles = 1..seg.len().saturating_sub(1);
    let dips: Vec<Dip> = middles.filter_map(|i| dip(seg, rate, level, i)).collect();
    let places = dips.iter().map(|dip| dip.at);
    let rust = find_dips(seg, nominal(rate), level);
    assert!(places.eq(rust), "the Rust has other dips");
    dips
}

fn nominal(rate: u32) -> f64 {
    f64::from(rate) / 100.0
}

/// The dip whose lowest sample is this one: over 6 dB under the lower side, a side at most 25 dB under the level, no sample within
/// 0.4 bits that is lower, or equal and earlier.
fn dip(seg: &[f32], rate: u32, level: f64, i: usize) -> Option<Dip> {
    let level_at = |k: usize| f64::from(seg[k]);
    let (own, last) = (level_at(i), seg.len() - 1);
    // 1.5 and 0.4 bits in samples, halves rounded up
    let rate = rate as usize;
    let (side, near) = ((3 * rate + 100) / 200, (4 * rate + 500) / 1000);
    let highest = |from: usize, to: usize| (from..=to).map(level_at).fold(f64::NEG_INFINITY, f64::max);
    let left = highest(i.saturating_sub(side), i - 1);
    let right = highest(i + 1, last.min(i + side));
    let (lower, higher) = if left < right { (left, right) } else { (right, left) };
    let is_lowest =
        (i.saturating_sub(near)..i).all(|k| level_at(k) > own) && (i..=last.min(i + near)).all(|k| level_at(k) >= own);
    let is_dip = own < lower - 6.0 && higher >= level - 25.0 && is_lowest;
    is_dip.then(|| Dip {
        at: i as f64 + vertex(level_at(i - 1), own, level_at(i + 1)),
        depth: depth(lower, own),
    })
}

/// Where the parabola through three samples turns, from the middle one on.
fn vertex(before: f64, own: f64, after: f64) -> f64 {
    let bend = before - 2.0 * own + after;
    if bend == 0.0 {
        0.0
    } else {
        0.5 * (before - after) / bend
    }
}

/// "the lower side level minus its own, rounded once in the levels' own width"
fn depth(lower: f64, own: f64) -> f64 {
    lower - own
}

/// The median depth of the points that the Rust's clock has; none where the Rust has no bits.
pub fn of_burst(seg: &[f32], rate: u32) -> Option<Median> {
    let rust = burst_bits(seg, rate);
    let level = level(seg)?;
    let Some(points) = accepted(&dips(seg, rate, level), nominal(rate)) else {
        assert!(rust.is_none(), "the Rust has bits");
        return None;
    };
    let rust = rust?;
    assert!(level == rust.level_dbm.into(), "the Rust has another level");
    assert!(
        points.iter().map(Point::of_the_rust).eq(rust.points),
        "the Rust has other points"
    );
    let depths: Vec<f64> = points.iter().map(|point| point.dip.depth).collect();
    Some(Median {
        points: points.len(),
        depth: median(depths),
    })
}

/// "the median .., index length/2" of the sorted list
fn median(mut depths: Vec<f64>) -> f64 {
    depths.sort_by(f64::total_cmp);
    depths[depths.len() / 2]
}

/// The level that nine tenths of the samples don't pass.
fn level(seg: &[f32]) -> Option<f64> {
    let mut sorted = seg.to_vec();
    sorted.sort_by(f32::total_cmp);
    sorted.get(9 * seg.len() / 10).map(|&v| v.into())
}

/// An accepted dip: it lies on the grid, at a bit after the one before.
struct Point {
    bit: f64,
    dip: Dip,
}

impl Point {
    fn of_the_rust(&self) -> (i64, f64) {
        (self.bit as i64, self.dip.at)
    }
}

/// The accepted dips, in their order; none where they are too few or a bit is too far away.
fn accepted(dips: &[Dip], nominal: f64) -> Option<Vec<Point>> {
    if dips.len() < FEWEST {
        return None;
    }
    let mut clock = Clock::anchored(dips, nominal);
    let mut points: Vec<Point> = vec![];
    for &dip in dips {
        let bit = clock.bit(dip.at)?;
        let off = (dip.at - (clock.phase + bit * clock.period)).abs();
        let is_later = points.last().is_none_or(|point| bit > point.bit);
        if off <= 0.35 * clock.period && is_later {
            points.push(Point { bit, dip });
            clock.add(bit, dip.at, points.len());
        }
    }
    (points.len() >= FEWEST).then_some(points)
}

/// The bit grid, and the sums that it is fitted by.
struct Clock {
    period: f64,
    phase: f64,
    bits: f64,
    places: f64,
    squares: f64,
    products: f64,
}

impl Clock {
    /// The grid through the mean phase of the first dips.
    fn anchored(dips: &[Dip], nominal: f64) -> Self {
        let first = dips[0].at;
        let (mut s, mut c) = (0.0, 0.0);
        for dip in dips.iter().take(ANCHORS) {
            let angle = 2.0 * PI * (dip.at - first) / nominal;
            s += trig::sin(angle);
            c += trig::cos(angle);
        }
        Self {
            period: nominal,
            phase: first + trig::atan2(s, c) / (2.0 * PI) * nominal,
            bits: 0.0,
            places: 0.0,
            squares: 0.0,
            products: 0.0,
        }
    }

    /// The bit nearest to a place.
    fn bit(&self, at: f64) -> Option<f64> {
        let bit = ((at - self.phase) / self.period + 0.5).floor();
        (bit.abs() <= FARTHEST_BIT).then_some(bit)
    }

    /// One more point: a line through all of them by least squares, where there are enough.
    fn add(&mut self, bit: f64, at: f64, points: usize) {
        self.bits += bit;
        self.places += at;
        self.squares += bit * bit;
        self.products += bit * at;
        let n = points as f64;
        let determinant = n * self.squares - self.bits * self.bits;
        if points >= FITTED && determinant > 0.0 {
            self.period = (n * self.products - self.bits * self.places) / determinant;
            self.phase = (self.places - self.period * self.bits) / n;
        }
    }
}

#[cfg(test)]
mod tests {
    use super::*;
    use crate::generate::format;
    use crate::oracle::lines;

    const RATE: u32 = 1000;

    /// Samples of one level with some at others.
    fn flat(n: usize, level: f32, others: &[(usize, f32)]) -> Vec<f32> {
        let mut seg = vec![level; n];
        for &(at, v) in others {
            seg[at] = v;
        }
        seg
    }

    /// A dip of one sample between two sides.
    fn between(left: f32, own: f32, right: f32) -> Vec<f32> {
        [&[left; 20][..], &[own], &[right; 20]].concat()
    }

    fn depths(seg: &[f32]) -> Vec<f64> {
        let dips = dips(seg, RATE, -60.0);
        dips.iter().map(|dip| dip.depth).collect()
    }

    /// Dips at these samples with these depths under -50 dBm, at 1,000/s: a bit has 10 samples.
    fn burst(places: &[(usize, f32)]) -> Option<Median> {
        let others: Vec<(usize, f32)> = places.iter().map(|&(at, depth)| (at, -50.0 - depth)).collect();
        of_burst(&flat(600, -50.0, &others), RATE)
    }

    /// Every second bit a dip of these depths.
    fn every_second(depths: &[f32]) -> Vec<(usize, f32)> {
        depths
            .iter()
            .enumerate()
            .map(|(i, &depth)| (20 * i + 20, depth))
            .collect()
    }

    /// "the lower side level minus its own"
    #[test]
    fn lower_side() {
        assert_eq!(depths(&between(-50.0, -70.5, -48.0)), [20.5]);
        assert_eq!(depths(&between(-48.0, -70.5, -50.0)), [20.5]);
        assert_eq!(depths(&between(-50.0, -70.5, -50.0)), [20.5]);
        assert_eq!(depths(&between(100.0, -200.0, 100.0)), [300.0]);
    }

    /// A side's level is its highest sample within 1.5 bits, here 15 samples.
    #[test]
    fn side_level() {
        for (apart, depth) in [(1, 30.0), (15, 30.0), (16, 20.0)] {
            let sides = [(60 - apart, -50.0), (60, -80.0), (60 + apart, -50.0)];
            assert_eq!(depths(&flat(120, -60.0, &sides)), [depth], "{apart}");
        }
    }

    /// "rounded once in the levels' own width": binary64, from samples widened first
    #[test]
    fn rounded_once() {
        let (side, own) = (0.1f32, -93.7f32);
        let widened = f64::from(side) - f64::from(own);
        assert_eq!(depths(&between(side, own, side)), [widened]);
        assert_ne!(widened, f64::from(side - own));
        assert_eq!(depths(&between(1e-30, -20.0, 1e-30)), [20.0]);
        assert_eq!(depths(&between(-0.0, -20.0, 0.0)), [20.0]);
    }

    /// A dip is over 6 dB deep.
    #[test]
    fn least_depth() {
        assert_eq!(depths(&between(-60.0, -66.0, -60.0)), []);
        let own = (-66f32).next_down();
        assert_eq!(depths(&between(-60.0, own, -60.0)), [-60.0 - f64::from(own)]);
    }

    /// "the median .., index length/2": of an even number the higher one in the middle
    #[test]
    fn middle_depth() {
        let rising = [10.0, 11.0, 12.0, 13.0, 14.0, 15.0, 16.0, 17.0, 18.0, 19.0];
        for (count, depth) in [(8, 14.0), (9, 14.0), (10, 15.0)] {
            let mut places = every_second(&rising[..count]);
            let expected = Some(Median { points: count, depth });
            assert_eq!(burst(&places), expected);
            let mut falling = rising[..count].to_vec();
            falling.reverse();
            assert_eq!(burst(&every_second(&falling)), expected);
            // two in the middle become the highest and the lowest
            places[3].1 = 99.0;
            places[4].1 = 6.5;
            let expected = Some(Median {
                points: count,
                depth: depth + 1.0,
            });
            assert_eq!(burst(&places), expected);
        }
        assert_eq!(burst(&every_second(&rising[..7])), None);
    }

    /// "of its accepted dips": one half a bit off the grid is skipped, with its depth
    #[test]
    fn off_the_grid() {
        let depths: Vec<f32> = (10..23u8).map(f32::from).collect();
        let on_grid = every_second(&depths);
        let expected = Some(Median {
            points: 13,
            depth: 16.0,
        });
        assert_eq!(burst(&on_grid), expected);
        for depth in [6.5, 120.0] {
            let mut all = on_grid.clone();
            all.extend([(285, depth), (305, depth), (325, depth), (345, depth)]);
            assert_eq!(burst(&all), expected);
        }
    }

    /// Of two dips at one bit the second is skipped.
    #[test]
    fn twice_at_a_bit() {
        let mut places = every_second(&[10.0, 11.0, 12.0, 13.0, 14.0, 15.0, 16.0, 17.0]);
        places.extend([(217, 80.0), (223, 90.0)]);
        let expected = Some(Median { points: 9, depth: 14.0 });
        assert_eq!(burst(&places), expected);
    }

    /// "in half decibels, rounded down, 255 if more"
    #[test]
    fn half_decibels() {
        for (depth, expected) in [
            (6f64.next_up(), 12),
            (6.5f64.next_down(), 12),
            (6.5, 13),
            (20.25, 40),
            (20.5, 41),
            (127.25, 254),
            (127.5f64.next_down(), 254),
            (127.5, 255),
            (128.0, 255),
            (300.0, 255),
        ] {
            assert_eq!(byte(depth), expected, "{depth}");
        }
    }

    /// "the C function, which has no dips, writes 0"
    #[test]
    fn of_the_c_function() {
        let cases = format("bits").expect("it is a format").cases(1, 50);
        let answers = cases.iter().map(|case| lines("bits", &case.bytes));
        let answers: String = answers.map(|lines| lines.expect("it is a format")).collect();
        let records: Vec<&str> = answers.lines().filter_map(|line| line.strip_prefix("0 ")).collect();
        assert!(records.len() > 50);
        assert!(records.iter().all(|record| &record[66..68] == "00"));
    }

    /// "a message has its first frame's"; one that was handed in has its own.
    #[test]
    fn first_frames() {
        let seg = flat(600, -50.0, &every_second(&[-70.25; 9]));
        let segment = Segment::new(&seg, RATE);
        assert_eq!(segment.byte(), 40);
        assert_eq!(First::Frame(segment).byte(), 40);
        assert_eq!(First::Given(7).byte(), 7);
    }
}
