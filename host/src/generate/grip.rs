//! Inputs of `grip`.

use super::given::{self, FRAME, LEAST, MESSAGE, MOST_RECORDS, Record, not_finite};
use super::put::Put;
use super::rng::Rng;
use super::{Case, case, cut};

pub const ROWS: u8 = 2;
const FILL: u32 = 9;
const SPANS: usize = 3;
const NO_SPAN: u8 = 255;
/// From here on binary64 numbers are 2 apart.
const COARSE: f64 = 9_007_199_254_740_992.0;

fn nearest(label: impl Into<String>, grip: f64, distance: f64, records: &[u8]) -> Case {
    case(label, Put::new().u8(0).f64(grip).f64(distance).bytes(records))
}

fn on_air(label: impl Into<String>, instant: f64, places: u16, fill: u32, records: &[u8]) -> Case {
    case(
        label,
        Put::new().u8(1).f64(instant).u16(places).u32(fill).bytes(records),
    )
}

/// A place more than there are records.
fn across(label: impl Into<String>, instant: f64, records: &[Record]) -> Case {
    on_air(label, instant, records.len() as u16 + 1, FILL, &given::bytes(records))
}

/// Messages at these times, in this order.
fn at(times: &[f64]) -> Vec<u8> {
    let messages: Vec<Record> = times.iter().map(|&t| message().time(t)).collect();
    given::bytes(&messages)
}

fn message() -> Record {
    Record::plain(MESSAGE).device(1)
}

pub fn directed() -> Vec<Case> {
    let mut cases = small();
    large(&mut cases);
    cases
}

/// The edges that need few records.
fn small() -> Vec<Case> {
    let mut cases = vec![];
    examples(&mut cases);
    distances(&mut cases);
    ties(&mut cases);
    times(&mut cases);
    spans(&mut cases);
    on_air_lists(&mut cases);
    lent(&mut cases);
    refusals(&mut cases);
    cases
}

/// The examples of the client's formats.
fn examples(cases: &mut Vec<Case>) {
    let records = [
        Record::plain(FRAME).ranks(1).device(1).time(5.0),
        message().time(3.0).span(0, 0, 3.0, 4.5),
        message().time(7.0).span(0, 1, 7.0, 8.5).span(1, NO_SPAN, 0.0, 9.0),
    ];
    let records = given::bytes(&records);
    cases.push(nearest("example 1", 5.0, 2.0, &records));
    cases.push(nearest("example 2", 5.5, 1.0, &records));
    cases.push(on_air("example 3", 7.0, 3, FILL, &records));
    cases.push(on_air("example 4", 4.5, 3, FILL, &records));
    cases.push(on_air("example 5", 7.0, 2, FILL, &records));
    cases.push(nearest("example 6", 5.0, -1.0, &records));
}

/// A message at, just within and just beyond the distance, on either side of the grip.
fn distances(cases: &mut Vec<Case>) {
    for distance in [0.0, -0.0, LEAST, 0.1, 2.5, f64::MAX] {
        for grip in [0.0, -0.0, 5.0, -1e6, f64::MAX] {
            for away in [distance, distance.next_up(), distance.next_down(), 0.0] {
                let label = format!("{distance:e} from {grip:e}");
                cases.push(nearest(label.clone(), grip, distance, &at(&[grip + away])));
                cases.push(nearest(label, grip, distance, &at(&[grip - away])));
            }
        }
    }
    // the exact distance is over it, the rounded one isn't
    cases.push(nearest("rounded down", COARSE, COARSE, &at(&[-1.0])));
    cases.push(nearest("rounded up", COARSE, COARSE, &at(&[-1.5])));
    cases.push(nearest("too far for a number", f64::MAX, f64::MAX, &at(&[f64::MIN])));
    cases.push(nearest(
        "a frame alone",
        5.0,
        9.0,
        &given::bytes(&[Record::plain(FRAME).time(5.0)]),
    ));
    cases.push(nearest("no record", 5.0, 9.0, &[]));
}

/// Equal distances, times and both, in every order of the records.
fn ties(cases: &mut Vec<Case>) {
    let lists: [(f64, &[f64]); 12] = [
        (5.0, &[3.0, 7.0]),
        (5.0, &[7.0, 3.0]),
        (5.0, &[7.0, 7.0, 3.0, 3.0]),
        (5.0, &[7.0, 3.0, 7.0, 3.0]),
        (5.0, &[7.0, 7.0]),
        (5.0, &[9.0, 7.0, 4.0, 6.0, 4.0]),
        (0.0, &[0.0, -0.0]),
        (0.0, &[-0.0, 0.0]),
        (-0.0, &[1.0, -0.0, 0.0, -1.0]),
        (0.0, &[LEAST, -LEAST]),
        // rounded to one distance: the earlier time, though it is the further one
        (COARSE, &[0.5, 0.25]),
        (COARSE, &[0.25, 0.5, -0.5, -0.25, 0.0]),
    ];
    for (grip, times) in lists {
        for distance in [1.0, 2.0, f64::MAX] {
            cases.push(nearest(
                format!("{times:?} around {grip:e}"),
                grip,
                distance,
                &at(times),
            ));
        }
    }
    let mut kinds = vec![message().time(7.0), message().time(3.0)];
    kinds.insert(0, Record::plain(FRAME).time(4.0));
    kinds.insert(2, Record::plain(FRAME).time(5.0));
    cases.push(nearest("frames between", 5.0, 3.0, &given::bytes(&kinds)));
}

/// Times that never qualify, alone and beside one that does.
fn times(cases: &mut Vec<Case>) {
    for time in not_finite() {
        let label = format!("time {:016x}", time.to_bits());
        for grip in [0.0, f64::MAX, f64::MIN] {
            cases.push(nearest(label.clone(), grip, f64::MAX, &at(&[time])));
        }
        cases.push(nearest(label.clone(), 0.0, 2.0, &at(&[time, 1.0, time])));
        // on air goes by the spans alone
        cases.push(across(label, 1.0, &[message().time(time).span(0, 0, 1.0, 2.0)]));
    }
}

/// One span in each place, with its ends at and beside the instant; odd ranks, and ends that aren't finite.
fn spans(cases: &mut Vec<Case>) {
    let x = 7.5f64;
    for place in 0..SPANS {
        for begin in [x, x.next_up(), x.next_down(), 3.0] {
            for end in [x, x.next_up(), x.next_down(), 9.0] {
                let record = message().span(place, place as u8, begin, end);
                cases.push(across(format!("span {place}"), x, &[record]));
            }
        }
        for rank in [0, 1, 2, 3, 44, 127, 128, 254, NO_SPAN] {
            let record = message().span(place, rank, 0.0, 9.0);
            cases.push(across(format!("rank {rank} in place {place}"), x, &[record]));
        }
        for odd in not_finite() {
            let label = format!("{:016x} in place {place}", odd.to_bits());
            let records = [message().span(place, 1, odd, 9.0), message().span(place, 1, 3.0, odd)];
            cases.push(across(label, x, &records));
        }
    }
}

/// Spans around zero and without end, and lists in which some are on air.
fn on_air_lists(cases: &mut Vec<Case>) {
    let ends = [0.0, -0.0, LEAST, -LEAST];
    for instant in ends {
        let all = ends.iter().flat_map(|&b| ends.map(|e| message().span(1, 0, b, e)));
        cases.push(across("around zero", instant, &all.collect::<Vec<_>>()));
    }
    for instant in [f64::MAX, f64::MIN] {
        let whole = message().span(2, 2, f64::NEG_INFINITY, f64::INFINITY);
        cases.push(across(
            "always",
            instant,
            &[whole, message().span(0, 0, f64::MIN, f64::MAX)],
        ));
    }
    let frame = Record::plain(FRAME).span(0, 0, 0.0, 9.0);
    let on = message().span(0, 0, 0.0, 9.0);
    let off = message().span(0, 0, 0.0, 5.0).span(1, 1, 8.0, 9.0);
    let later = off.clone().span(2, 2, 7.0, 8.0);
    let none = [frame.clone(), off.clone()];
    cases.push(across("a frame's span", 7.5, &none));
    cases.push(across("some of them", 7.5, &[frame, on.clone(), off, later, on]));
    cases.push(across("no record", 7.5, &[]));
}

/// Lists with fewer places than whole records, 2 before the other causes, and fills.
fn lent(cases: &mut Vec<Case>) {
    let on = message().span(0, 0, 0.0, 9.0);
    let three = given::bytes(&[on.clone(), Record::plain(FRAME), on]);
    for places in [0, 1, 2, 3, 4, 1000] {
        for (what, length) in [
            ("", 360),
            (", a part more", 359),
            (", under one record", 119),
            (", none", 0),
        ] {
            let label = format!("{places} places, {length} bytes{what}");
            cases.push(on_air(label.clone(), 5.0, places, FILL, &three[..length]));
            cases.push(on_air(label, f64::NAN, places, FILL, &three[..length]));
        }
    }
    for fill in [0, 1, 2, 3, u32::MAX] {
        cases.push(on_air(format!("filled with {fill}"), 5.0, 7, fill, &three));
        cases.push(on_air(format!("filled with {fill}, none"), 9.0, 7, fill, &three));
    }
}

/// Refusal 14, and 12 before it.
fn refusals(cases: &mut Vec<Case>) {
    let good = at(&[5.0]);
    let bad = given::bytes(&[message().kind(3)]);
    for odd in not_finite() {
        let label = format!("{:016x}", odd.to_bits());
        for records in [&good, &bad, &vec![]] {
            cases.push(nearest(format!("grip {label}"), odd, 1.0, records));
            cases.push(nearest(format!("distance {label}"), 5.0, odd, records));
            cases.push(on_air(format!("instant {label}"), odd, 1, FILL, records));
        }
        cases.push(nearest(format!("both {label}"), odd, odd, &good));
    }
    for distance in [-LEAST, -1.0, f64::MIN] {
        for records in [&good, &bad, &vec![]] {
            cases.push(nearest(format!("distance {distance:e}"), 5.0, distance, records));
        }
    }
    for (i, (label, records)) in given::bad_lists().into_iter().enumerate() {
        cases.push(nearest(label.clone(), 5.0, [1.0, -1.0][i % 2], &records));
        cases.push(on_air(label, 5.0, 3, FILL, &records));
    }
    for (rssi, ranks) in [(-200.0, 1), (100.0, 7), (-0.0, 4)] {
        let records = [message().rssi(rssi).ranks(ranks).span(0, 0, 0.0, 9.0)];
        cases.push(nearest(format!("RSSI {rssi}"), 0.0, 1.0, &given::bytes(&records)));
        cases.push(across(format!("RSSI {rssi}"), 5.0, &records));
    }
    let frames = given::bytes(&given::odd_frames());
    cases.push(nearest("odd frames", 0.0, 1.0, &frames));
    cases.push(on_air("odd frames", 0.0, 100, FILL, &frames));
}

/// As many records as a program is handed.
fn large(cases: &mut Vec<Case>) {
    let times: Vec<f64> = (0..MOST_RECORDS).map(|i| (i * 7919 % MOST_RECORDS) as f64).collect();
    for grip in [0.0, 499.5, 999.0, 1e4] {
        cases.push(nearest("1,000 records", grip, 1.0, &at(&times)));
    }
    let on: Vec<Record> = (0..MOST_RECORDS)
        .map(|i| message().span(i % SPANS, 0, 0.0, i as f64))
        .collect();
    let on = given::bytes(&on);
    for (instant, places) in [(0.0, 1000), (500.0, 1000), (998.0, 1000), (0.0, 999), (-1.0, 1000)] {
        cases.push(on_air("1,000 records", instant, places, FILL, &on));
    }
}

/// What the gate replays: the small edges, some random cases, and one that is cut short.
pub fn sample() -> Case {
    let mut rng = Rng::new(1);
    let mut cases = small();
    cases.extend((0..30).map(|_| any(&mut rng, 8)));
    cases.push(cut(&mut rng, 0, nearest("cut", 5.0, 1.0, &at(&[5.0]))));
    Case {
        label: "directed cases, then random ones".to_string(),
        bytes: cases.into_iter().flat_map(|c| c.bytes).collect(),
        short: true,
    }
}

pub fn random(rng: &mut Rng) -> Case {
    let most = if rng.chance(0.02) { MOST_RECORDS } else { 12 };
    let whole = any(rng, most);
    if rng.chance(0.01) { cut(rng, 0, whole) } else { whole }
}

/// Records around a few seconds, and one call on them.
fn any(rng: &mut Rng, most: usize) -> Case {
    let count = rng.below(most + 1);
    let origin = rng.pick(&[0.0, 0.0, 1e6, -1e9, COARSE]);
    let records: Vec<Record> = (0..count).map(|_| any_record(rng, origin)).collect();
    let label = format!("{count} records");
    let bytes = if rng.chance(0.15) {
        given::spoiled(rng, records)
    } else {
        given::bytes(&records)
    };
    if rng.chance(0.5) {
        let distance = rng.pick(&[0.0, 0.5, 1.0, 3.0, 1e9]);
        return nearest(label, second(rng, origin), spoil(rng, distance), &bytes);
    }
    let places = if rng.chance(0.1) {
        rng.below(count + 1)
    } else {
        count + rng.below(MOST_RECORDS - count + 1)
    };
    let fill = rng.below(5) as u32;
    on_air(label, second(rng, origin), places as u16, fill, &bytes)
}

/// Mostly a multiple of half a second, so that there are ties.
fn second(rng: &mut Rng, origin: f64) -> f64 {
    let s = if rng.chance(0.8) {
        origin + rng.below(20) as f64 / 2.0
    } else {
        origin + rng.real(-5.0, 15.0)
    };
    spoil(rng, s)
}

fn spoil(rng: &mut Rng, s: f64) -> f64 {
    match rng.below(40) {
        0 => rng.pick(&not_finite()),
        1 => -s,
        _ => s,
    }
}

fn any_record(rng: &mut Rng, origin: f64) -> Record {
    let kind = if rng.chance(0.2) { FRAME } else { MESSAGE };
    let mut record = Record::noise(rng).kind(kind).time(second(rng, origin));
    for place in 0..SPANS {
        let rank = rng.pick(&[0, 1, 2, NO_SPAN, NO_SPAN]);
        let begin = second(rng, origin);
        let end = if rng.chance(0.7) {
            begin + 1.5
        } else {
            second(rng, origin)
        };
        record = record.span(place, rank, begin, end);
    }
    record
}

#[cfg(test)]
mod tests {
    use super::*;
    use crate::oracle::lines;

    #[test]
    fn lines_of_the_examples() {
        let mut cases = vec![];
        examples(&mut cases);
        let input: Vec<u8> = cases.into_iter().flat_map(|c| c.bytes).collect();
        let expected = "N 1\nnone\nA 2\nK 2\nnone\nK 3\nR 2\nK 2\nR 14\n";
        assert_eq!(lines("grip", &input).as_deref(), Some(expected));
    }
}
