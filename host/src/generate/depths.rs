//! Inputs of `depths`.

use super::put::Put;
use super::rng::Rng;
use super::signal::{self, RATES};
use super::{Case, burstbits, case, cut, dips};
use crate::limits::SCRATCH64;

pub const ROWS: u8 = 2;
/// As many places of scratch as are wanted.
const PLACES: u16 = SCRATCH64 as u16;
/// The samples beside the dips, in dBm.
const LEVEL: f32 = -50.0;

fn find(label: impl Into<String>, rate: u32, level: f64, seg: &[f32]) -> Case {
    case(label, Put::new().u8(0).u32(rate).f64(level).f32s(seg))
}

fn bits(label: impl Into<String>, rate: u32, places: u16, seg: &[f32]) -> Case {
    case(label, Put::new().u8(1).u32(rate).u16(places).f32s(seg))
}

/// A case of `dips`, with depths.
fn of_dips(c: Case) -> Case {
    let bytes = [&[0], &c.bytes[..]].concat();
    Case { bytes, ..c }
}

/// A case of `burstbits`, with scratch of so many places.
fn of_burstbits(c: Case, places: u16) -> Case {
    let (rate, seg) = c.bytes.split_at(c.bytes.len().min(4));
    let bytes = [&[1], rate, &places.to_le_bytes(), seg].concat();
    Case { bytes, ..c }
}

/// A dip of one sample between two sides.
fn between(left: f32, own: f32, right: f32) -> Vec<f32> {
    [&[left; 10][..], &[own], &[right; 10]].concat()
}

/// The sample at which a bit starts.
fn start_of(rate: u32, bit: f64) -> usize {
    (bit * f64::from(rate) / 100.0 + 0.5) as usize
}

/// Dips of one sample at these bits, so much under the samples beside them.
fn comb(rate: u32, dips: &[(f64, f32)]) -> Vec<f32> {
    let last = dips.iter().map(|&(bit, _)| start_of(rate, bit)).max().unwrap_or(0);
    let mut seg = vec![LEVEL; last + start_of(rate, 3.0)];
    for &(bit, depth) in dips {
        seg[start_of(rate, bit)] = LEVEL - depth;
    }
    seg
}

/// Dips of these depths, three bits apart.
fn apart(depths: &[f32]) -> Vec<(f64, f32)> {
    let bit = |i: usize| 3.0 * i as f64 + 2.0;
    depths.iter().enumerate().map(|(i, &depth)| (bit(i), depth)).collect()
}

/// So many depths, from 10 dB upwards.
fn rising(count: usize) -> Vec<f32> {
    (0..count).map(|i| 10.0 + i as f32).collect()
}

fn shuffled(rng: &mut Rng, mut depths: Vec<f32>) -> Vec<f32> {
    for i in (1..depths.len()).rev() {
        depths.swap(i, rng.below(i + 1));
    }
    depths
}

pub fn directed() -> Vec<Case> {
    let mut cases = small();
    RATES.iter().for_each(|&rate| rates(&mut cases, rate));
    cases.extend(dips::directed().into_iter().map(of_dips));
    cases.extend(burstbits::directed().into_iter().map(|c| of_burstbits(c, PLACES)));
    crowded(&mut cases);
    refused_by_several(&mut cases);
    cases
}

/// The edges that need few samples.
fn small() -> Vec<Case> {
    let mut cases = vec![];
    examples(&mut cases);
    sides(&mut cases);
    widths(&mut cases);
    least(&mut cases);
    medians(&mut cases);
    skipped(&mut cases, 200);
    scratch(&mut cases);
    refused(&mut cases);
    cases
}

/// What the gate replays: the small edges, then random cases and one that is cut short.
pub fn sample() -> Case {
    let mut cases = small();
    let random = (0..).map(|index| random(&mut Rng::of_case("depths", 1, index)));
    let few = random.filter(|c: &Case| !c.short && c.bytes.len() < 3000);
    cases.extend(few.take(20));
    let mut bytes: Vec<u8> = cases.into_iter().flat_map(|c| c.bytes).collect();
    bytes.extend(&bits("cut", 200, PLACES, &[LEVEL; 3]).bytes[..12]);
    Case {
        label: "directed cases, then random ones".to_string(),
        bytes,
        short: true,
    }
}

/// The examples of the client's formats.
fn examples(cases: &mut Vec<Case>) {
    cases.push(find("example 1", 250, -50.0, &between(-50.0, -70.5, -48.0)));
    let mut seg = comb(200, &apart(&rising(9)));
    seg.resize(60, LEVEL);
    cases.push(bits("example 2", 200, 6000, &seg));
    cases.push(bits("example 3", 200, 5999, &[LEVEL; 60]));
    cases.push(bits("example 4", 200, 6000, &[LEVEL; 60]));
}

/// The lower side counts, whichever it is, to the ends of the range; a side may have one sample.
fn sides(cases: &mut Vec<Case>) {
    for (left, right) in [
        (-50.0, -48.0),
        (-48.0, -50.0),
        (-50.0, -50.0),
        (-73.5, -48.0),
        (-48.0, -73.5),
    ] {
        cases.push(find(
            format!("sides {left} and {right}"),
            250,
            -50.0,
            &between(left, -80.5, right),
        ));
    }
    for (side, own) in [
        (100.0, -200.0),
        (100.0, 93.9),
        (-193.9, -200.0),
        (6.5, 0.0),
        (6.5, -0.0),
        (-0.0, -7.0),
    ] {
        let label = format!("from {side} to {own}");
        cases.push(find(label, 250, f64::NEG_INFINITY, &between(side, own, side)));
    }
    cases.push(find("sides of one sample", 250, -50.0, &[-50.0, -70.5, -48.0]));
    cases.push(find(
        "two dips side by side",
        200,
        -50.0,
        &[-50.0, -70.5, -60.0, -71.25, -48.0],
    ));
    for at in [1, 2, 3, 4, 5] {
        let mut seg = vec![-60.0; 21];
        seg[10] = -90.0;
        seg[10 - at] = -50.0;
        seg[10 + at] = -40.0;
        cases.push(find(format!("louder samples {at} from the dip"), 250, -50.0, &seg));
    }
}

/// Levels whose difference is another one in binary32, or is rounded in binary64 too.
fn widths(cases: &mut Vec<Case>) {
    let least = f32::from_bits(1);
    for side in [
        0.1,
        -0.1,
        3.3,
        99.9,
        -33.33,
        1e-8,
        1e-10,
        -1e-13,
        1e-16,
        1e-30,
        f32::MIN_POSITIVE,
        least,
        -least,
    ] {
        for own in [-93.7, -20.1, -199.9] {
            if own < side - 6.0 {
                let seg = between(side, own, side);
                cases.push(find(format!("from {side} to {own}"), 250, 0.0, &seg));
            }
        }
        let seg = between(20.7, side.min(14.6), 20.7);
        cases.push(find(format!("from 20.7 to {side}"), 250, 0.0, &seg));
    }
}

/// 6 dB and a little more, or less.
fn least(cases: &mut Vec<Case>) {
    for side in [-50f32, -60.1, 0.3, -123.4] {
        let under = (f64::from(side) - 6.0) as f32;
        for own in [under.next_down(), under, under.next_up()] {
            cases.push(find("around 6 dB", 250, -50.0, &between(side, own, side)));
        }
    }
    for depth in [6.0, 6.00001, 6.5] {
        let label = format!("nine dips of {depth} dB");
        cases.push(bits(label, 200, PLACES, &comb(200, &apart(&[depth; 9]))));
    }
}

/// Even and odd counts, in every order; seven dips give no bits.
fn medians(cases: &mut Vec<Case>) {
    let rng = &mut Rng::new(5);
    for count in [7, 8, 9, 10, 16, 17] {
        let depths = rising(count);
        let falling = depths.iter().rev().copied().collect();
        let mixed = shuffled(rng, depths.clone());
        for (order, depths) in [("rising", depths), ("falling", falling), ("mixed", mixed)] {
            let seg = comb(200, &apart(&depths));
            cases.push(bits(format!("{count} {order} depths"), 200, PLACES, &seg));
        }
    }
    for depth in [20.25, 127.25, 127.49, 127.5, 128.0, 150.0] {
        let label = format!("eight dips of {depth} dB");
        cases.push(bits(label, 200, PLACES, &comb(200, &apart(&[depth; 8]))));
    }
    let mut two = [10.0; 9];
    for i in 0..9 {
        two[i] = 20.0;
        cases.push(bits(
            format!("{} of nine deeper", i + 1),
            200,
            PLACES,
            &comb(200, &apart(&two)),
        ));
    }
    // the level beside the dips falls, so the deepest dip isn't the lowest sample
    let mut seg = comb(200, &apart(&rising(9)));
    for (i, v) in seg.iter_mut().enumerate() {
        *v -= i as f32 / 3.0;
    }
    cases.push(bits("a falling level", 200, PLACES, &seg));
}

/// Dips half a bit off the grid, before the others, behind them and among them: skipped, and of other depths than all that are accepted.
fn skipped(cases: &mut Vec<Case>, rate: u32) {
    for (count, depth) in [(12, 6.5), (12, 140.0), (13, 6.5), (13, 140.0)] {
        let on_grid: Vec<(f64, f32)> = apart(&rising(count)).iter().map(|&(bit, d)| (bit + 15.0, d)).collect();
        let (first, last) = (on_grid[0].0, on_grid[count - 1].0);
        for (place, from, step) in [
            ("before", first - 13.5, 3.0),
            ("behind", last + 1.5, 3.0),
            ("among", first + 1.5, 6.0),
        ] {
            let others = (0..5).map(|i| (from + step * f64::from(i), depth));
            let dips: Vec<(f64, f32)> = on_grid.iter().copied().chain(others).collect();
            let seg = comb(rate, &dips);
            let label = format!("five of {depth} dB off the grid {place} {count} others at {rate}");
            cases.push(bits(label.clone(), rate, PLACES, &seg));
            cases.push(find(label, rate, LEVEL.into(), &seg));
        }
    }
}

/// Two dips within a bit's reach, of which the second is skipped.
fn twice(cases: &mut Vec<Case>, rate: u32) {
    for (first, second) in [(80.0, 90.0), (7.0, 90.0), (90.0, 7.0)] {
        let mut dips = apart(&rising(8));
        let end = dips[7].0 + 3.0;
        dips.extend([
            (end - 0.3, first),
            (end + 0.3, second),
            (end + 2.7, first),
            (end + 3.3, second),
        ]);
        let label = format!("two dips at a bit, {first} and {second} dB, at {rate}");
        cases.push(bits(label, rate, PLACES, &comb(rate, &dips)));
    }
}

/// Rates and levels: the same shapes with other windows.
fn rates(cases: &mut Vec<Case>, rate: u32) {
    let rng = &mut Rng::new(rate.into());
    for count in [7, 8, 9, 20, 21] {
        let depths = shuffled(rng, rising(count));
        let mut seg = comb(rate, &apart(&depths));
        cases.push(bits(format!("{count} dips at {rate}"), rate, PLACES, &seg));
        for level in [-150.0, 0.0, 120.0] {
            let moved: Vec<f32> = seg
                .iter()
                .map(|v| v + level - LEVEL)
                .map(|v| v.clamp(-200.0, 100.0))
                .collect();
            cases.push(bits(
                format!("{count} dips at {rate}, level {level}"),
                rate,
                PLACES,
                &moved,
            ));
            cases.push(find(
                format!("{count} dips at {rate}, level {level}"),
                rate,
                level.into(),
                &moved,
            ));
        }
        for v in &mut seg {
            *v += rng.real(-2.0, 2.0) as f32;
        }
        cases.push(bits(format!("{count} dips with noise at {rate}"), rate, PLACES, &seg));
        cases.push(find(
            format!("{count} dips with noise at {rate}"),
            rate,
            LEVEL.into(),
            &seg,
        ));
    }
    skipped(cases, rate);
    twice(cases, rate);
}

/// As many dips as 12 s can have: 3,874/s has the most of all rates; and as many points.
fn crowded(cases: &mut Vec<Case>) {
    let rng = &mut Rng::new(8);
    for (rate, step) in [(3874, 16), (4000, 17), (4000, 40), (200, 2), (374, 2), (624, 3)] {
        let mut seg = vec![LEVEL; 12 * rate as usize];
        for at in (1..seg.len() - 1).step_by(step) {
            seg[at] -= rng.real(6.5, 90.0) as f32;
        }
        let label = format!("a dip every {step} samples at {rate}");
        cases.push(find(label.clone(), rate, LEVEL.into(), &seg));
        cases.push(bits(label, rate, PLACES, &seg));
    }
}

fn scratch(cases: &mut Vec<Case>) {
    let seg = comb(200, &apart(&rising(9)));
    for places in [0, 1, 2999, 3000, 3001, 5998, 5999, 6000, 6001] {
        cases.push(bits(format!("{places} places"), 200, places, &seg));
        cases.push(bits(format!("{places} places, no samples"), 200, places, &[]));
    }
}

fn refused(cases: &mut Vec<Case>) {
    let seg = comb(200, &apart(&rising(8)));
    for rate in [0, 199, 4001, u32::MAX] {
        cases.push(find(format!("rate {rate}"), rate, f64::NAN, &seg));
        cases.push(bits(format!("rate {rate}"), rate, 0, &seg));
    }
    for v in [f32::NAN, f32::INFINITY, f32::NEG_INFINITY, 100.1, -200.1] {
        let mut bad = seg.clone();
        bad[7] = v;
        cases.push(find(format!("a sample of {v}"), 200, f64::NAN, &bad));
        cases.push(bits(format!("a sample of {v}"), 200, PLACES, &bad));
        cases.push(bits(format!("a sample of {v}, 5,999 places"), 200, 5999, &bad));
    }
    let mut long = vec![LEVEL; 2401];
    long[7] = f32::NAN;
    cases.push(find("12 s and one more", 200, f64::NAN, &long));
    cases.push(bits("12 s and one more", 200, PLACES, &long));
    for level in [f64::NAN, f64::INFINITY, f64::NEG_INFINITY, -25.0, -24.999] {
        cases.push(find(format!("level {level}"), 200, level, &seg));
    }
}

/// Every set of the causes of each call.
fn refused_by_several(cases: &mut Vec<Case>) {
    let good = comb(200, &apart(&rising(8)));
    for causes in 0..16u8 {
        let has = |cause: u8| causes & cause != 0;
        let mut seg = good.clone();
        if has(4) {
            seg.resize(2401, LEVEL);
        }
        if has(8) {
            seg[0] = f32::NAN;
        }
        let rate = if has(1) { 199 } else { 200 };
        let label = format!("causes {causes:04b}");
        cases.push(find(label.clone(), rate, if has(2) { f64::NAN } else { -50.0 }, &seg));
        cases.push(bits(label, rate, if has(2) { 5999 } else { 6001 }, &seg));
    }
    cases.push(bits("12 s", 200, PLACES, &[LEVEL; 2400]));
}

pub fn random(rng: &mut Rng) -> Case {
    let places = if rng.chance(0.03) {
        rng.pick(&[0, 3000, 5999])
    } else {
        rng.pick(&[PLACES, PLACES, 6001])
    };
    match rng.below(5) {
        0 => of_dips(dips::random(rng)),
        1 => of_burstbits(burstbits::random(rng), places),
        _ => {
            let rate = signal::rate(rng);
            let seg = scattered(rng, rate);
            let whole = if rng.chance(0.3) {
                let level = f64::from(LEVEL) + rng.real(-10.0, 30.0);
                find("dips of random depths", rate, level, &seg)
            } else {
                bits("dips of random depths", rate, places, &seg)
            };
            if rng.chance(0.01) { cut(rng, 0, whole) } else { whole }
        }
    }
}

/// Dips of random depths, mostly on the grid, under a level that moves.
fn scattered(rng: &mut Rng, rate: u32) -> Vec<f32> {
    let (mut bit, mut dips) = (1.0, vec![]);
    let off_grid = rng.pick(&[0.0, 0.1, 0.3]);
    let deepest = rng.pick(&[12.0, 30.0, 150.0]);
    for _ in 0..rng.range(5, 70) {
        bit += rng.range(1, 4) as f64;
        let off = if rng.chance(off_grid) { rng.real(-0.5, 0.5) } else { 0.0 };
        let depth = rng.real(5.5, deepest) as f32;
        let depth = if rng.chance(0.5) { depth.floor() } else { depth };
        dips.push((bit + off, depth));
    }
    let mut seg = comb(rate, &dips);
    let slope = rng.pick(&[0.0, 0.0, 10.0, -20.0]) / seg.len() as f64;
    let noise = rng.pick(&[0.0, 0.0, 0.5, 2.0]);
    for (i, v) in seg.iter_mut().enumerate() {
        let moved = f64::from(*v) + slope * i as f64 + noise * rng.unit();
        *v = moved.clamp(-200.0, 100.0) as f32;
    }
    seg
}

#[cfg(test)]
mod tests {
    use super::*;
    use crate::oracle::lines;

    fn answer(name: &str, bytes: &[u8]) -> String {
        lines(name, bytes).expect("it is a format")
    }

    #[test]
    fn lines_of_the_examples() {
        let mut cases = vec![];
        examples(&mut cases);
        let input: Vec<u8> = cases.into_iter().flat_map(|c| c.bytes).collect();
        let expected = "D 1 4023f417d05f417d 4034800000000000\nB 9 402c000000000000\nR 2\nnone\n";
        assert_eq!(answer("depths", &input), expected);
    }

    /// Places, points and refusals are those of `dips` and `burstbits`; only a short scratch has a refusal of its own.
    #[test]
    fn lines_of_dips_and_burstbits() {
        let random = (0..300).map(|index| random(&mut Rng::of_case("depths", 2, index)));
        for case in directed().into_iter().chain(random).filter(|c| !c.short) {
            let answered = answer("depths", &case.bytes);
            let words: Vec<&str> = answered.split_whitespace().collect();
            let (row, rest) = (case.bytes[0], &case.bytes[1..]);
            if row == 0 {
                let places: Vec<&str> = words[..2].iter().chain(words[2..].iter().step_by(2)).copied().collect();
                assert_eq!(
                    places,
                    answer("dips", rest).split_whitespace().collect::<Vec<_>>(),
                    "{}",
                    case.label
                );
                continue;
            }
            if answered == "R 2\n" {
                assert!(u16::from_le_bytes([rest[4], rest[5]]) < PLACES, "{}", case.label);
                continue;
            }
            let without_places = [&rest[..4], &rest[6..]].concat();
            let burstbits = answer("burstbits", &without_places);
            let others: Vec<&str> = burstbits.split_whitespace().collect();
            match words[..] {
                ["B", points, _] => assert_eq!(points, others[1], "{}", case.label),
                _ => assert_eq!(words, others, "{}", case.label),
            }
        }
    }

    /// The cases would show little if a median over all dips, skipped ones too, were the same.
    #[test]
    fn skipped_dips_matter() {
        let mut cases = vec![];
        RATES.iter().for_each(|&rate| skipped(&mut cases, rate));
        let mut others = 0;
        for two in cases.chunks(2) {
            let (median, all) = (answer("depths", &two[0].bytes), answer("depths", &two[1].bytes));
            let mut depths: Vec<f64> = all.split_whitespace().skip(3).step_by(2).map(float).collect();
            depths.sort_by(f64::total_cmp);
            if let ["B", _, depth] = median.split_whitespace().collect::<Vec<_>>()[..] {
                others += usize::from(float(depth) != depths[depths.len() / 2]);
            }
        }
        assert!(2 * others > cases.len() / 2, "{others} of {}", cases.len() / 2);
    }

    fn float(digits: &str) -> f64 {
        f64::from_bits(u64::from_str_radix(digits, 16).expect("digits of a float"))
    }
}
