//! Inputs of `fleet`.

use super::given::{self, FRAME, MESSAGE, MOST_RECORDS, Record};
use super::put::Put;
use super::rng::Rng;
use super::{Case, case, cut};

/// Places of the result list: those of 256 devices, and the most that the program has.
const PLACES: u16 = 2304;
const MOST_PLACES: u16 = 2400;
const DEVICES: u32 = 256;

fn of(label: impl Into<String>, places: u16, fill: i64, records: &[u8]) -> Case {
    case(label, Put::new().u16(places).u64(fill as u64).bytes(records))
}

/// A list with the places that it needs.
fn list(label: impl Into<String>, records: &[Record]) -> Case {
    of(label, PLACES, -1, &given::bytes(records))
}

fn message(device: u32) -> Record {
    Record::plain(MESSAGE).device(device)
}

pub fn directed() -> Vec<Case> {
    let mut cases = small();
    large(&mut cases);
    cases
}

/// The edges that need few records.
fn small() -> Vec<Case> {
    let mut cases = vec![];
    examples(&mut cases);
    fields(&mut cases);
    devices(&mut cases);
    lent(&mut cases);
    for (label, records) in given::bad_lists() {
        cases.push(of(label, PLACES, 7, &records));
    }
    let frames = given::odd_frames();
    cases.push(list("odd frames alone", &frames));
    cases.push(list("odd frames and a message", &[&frames[..], &[message(3)]].concat()));
    cases
}

/// The examples of the client's formats.
fn examples(cases: &mut Vec<Case>) {
    let records = [
        Record::plain(FRAME).device(9),
        message(5).clock_ppm(10).rssi(-50.25),
        message(2).ranks(6).clock_ppm(-3).rssi(-100.0),
        message(5).ranks(7).clock_ppm(-20).rssi(0.5),
    ];
    cases.push(list("example 1", &records));
    cases.push(list("example 2", &[]));
    cases.push(list("example 3", &[message(1).rssi(100.5)]));
    cases.push(of("example 4", PLACES - 1, 4, &[]));
}

/// Ranks, RSSI and clock error, each at its ends and between.
fn fields(cases: &mut Vec<Case>) {
    for sum in 1..=7 {
        cases.push(list(format!("ranks {sum}"), &[message(1).ranks(sum)]));
    }
    let all: Vec<Record> = (1..=7).map(|sum| message(1).ranks(sum)).collect();
    cases.push(list("all ranks", &all));
    for rssi in rssi_values() {
        let label = format!("RSSI {:08x}", rssi.to_bits());
        cases.push(list(label, &[message(1).rssi(rssi)]));
    }
    let all: Vec<Record> = rssi_values().into_iter().map(|v| message(1).rssi(v)).collect();
    cases.push(list("every RSSI", &all));
    let clocks = [0, 1, -1, 255, 256, -256, 65_536, i32::MAX, i32::MIN, -20, 10];
    for first in clocks {
        cases.push(list(format!("clock {first}"), &[message(1).clock_ppm(first)]));
        let pairs = clocks.map(|second| [message(1).clock_ppm(first), message(1).clock_ppm(second)]);
        for pair in pairs.iter().step_by(3) {
            cases.push(list(format!("clock {first} and another"), pair));
        }
    }
}

/// At and beside half decibels, the range's ends and zero.
fn rssi_values() -> Vec<f32> {
    let mut values = vec![
        -0.0,
        f32::from_bits(1),
        -f32::from_bits(1),
        f32::MIN_POSITIVE,
        -f32::MIN_POSITIVE,
        (-200f32).next_up(),
        100f32.next_down(),
    ];
    for half in [-400, -399, -398, -257, -101, -100, -2, -1, 0, 1, 2, 127, 128, 199, 200] {
        let v = half as f32 / 2.0;
        let beside = [v, v.next_down(), v.next_up(), v - 0.25, v + 0.25];
        values.extend(beside.into_iter().filter(|v| (-200.0..=100.0).contains(v)));
    }
    values
}

/// Device numbers that rise as numbers, not as bytes or as signed numbers, in several orders.
fn devices(cases: &mut Vec<Case>) {
    let numbers = [
        0,
        1,
        0xff,
        0x100,
        0x1_0000,
        0x0100_0000,
        0x7fff_ffff,
        0x8000_0000,
        0xffff_fffe,
        u32::MAX,
    ];
    for number in numbers {
        cases.push(list(format!("device {number:08x}"), &[message(number)]));
    }
    let rising: Vec<Record> = numbers.iter().map(|&n| message(n)).collect();
    let falling: Vec<Record> = rising.iter().rev().cloned().collect();
    let mixed: Vec<Record> = (0..rising.len()).map(|i| rising[i * 7 % 10].clone()).collect();
    cases.push(list("rising devices", &rising));
    cases.push(list("falling devices", &falling));
    cases.push(list("mixed devices", &mixed));
    cases.push(list("devices twice", &[rising, falling].concat()));
    let frames = [Record::plain(FRAME).device(4), Record::plain(FRAME).device(5)];
    cases.push(list("frames alone", &frames));
    cases.push(list(
        "a frame of another device",
        &[&frames[..], &[message(5)]].concat(),
    ));
    let mut rng = Rng::new(4);
    let noise: Vec<Record> = (0..6).map(|i| Record::noise(&mut rng).device(i % 2)).collect();
    cases.push(list("something in every byte", &noise));
}

/// Short and long result lists, fills, and 2 before 12.
fn lent(cases: &mut Vec<Case>) {
    let good = given::bytes(&[message(2).ranks(3), message(1).clock_ppm(7)]);
    let bad = given::bytes(&[message(2).kind(3)]);
    for places in [0, 1, 9, 18, PLACES - 9, PLACES - 1, PLACES, PLACES + 1, MOST_PLACES] {
        for (what, records) in [("", &good[..]), (", kind 3", &bad), (", a part", &good[..200])] {
            cases.push(of(format!("{places} places{what}"), places, 0, records));
        }
    }
    for fill in [0, 1, 2, 7, -1, -100, i64::MIN, i64::MAX, 1 << 32] {
        cases.push(of(format!("filled with {fill}"), MOST_PLACES, fill, &good));
    }
}

/// 256 devices, and a 257th that comes first, last or in between; 12 before 13, 2 before both.
fn large(cases: &mut Vec<Case>) {
    let rising: Vec<Record> = (0..DEVICES)
        .map(|d| message(3 * d + 5).ranks(1 + (d % 7) as u8))
        .collect();
    let falling: Vec<Record> = rising.iter().rev().cloned().collect();
    let frame = Record::plain(FRAME).device(u32::MAX);
    let and = |more: Record| [&rising[..], &[more]].concat();
    cases.push(list("256 devices", &rising));
    cases.push(list("a 257th, the highest", &and(message(u32::MAX))));
    cases.push(list(
        "a 257th and an unknown kind",
        &[and(message(0)), vec![message(1).kind(3)]].concat(),
    ));
    cases.push(list("256 devices, falling", &falling));
    cases.push(list("256 devices and a frame", &and(frame.clone())));
    cases.push(list("256 devices, one twice", &and(message(5))));
    cases.push(list("a 257th, the lowest", &and(message(0))));
    cases.push(list("a 257th in between", &and(message(300))));
    cases.push(list("a 257th first", &[&[message(u32::MAX)], &rising[..]].concat()));
    cases.push(list("a 257th after a frame", &[and(frame), vec![message(6)]].concat()));
    let twice = [falling, rising.clone()].concat();
    cases.push(list("256 devices, each twice", &twice));
    let many = given::bytes(&and(message(0)));
    cases.push(of("a 257th and a part", PLACES, -1, &[&many[..], &[2]].concat()));
    cases.push(of("a 257th, short list", PLACES - 1, -1, &many));
    cases.push(of("a 257th, long list", MOST_PLACES, i64::MIN, &many));
    let thousand: Vec<Record> = (0..MOST_RECORDS as u32).map(|i| message(i % 5).rssi(-200.0)).collect();
    cases.push(list("1,000 records", &thousand));
    let highest = thousand
        .into_iter()
        .map(|r| r.device(1).rssi(100.0).clock_ppm(i32::MIN));
    cases.push(list("1,000 records of one device", &highest.collect::<Vec<_>>()));
    let devices: Vec<Record> = (0..MOST_RECORDS as u32).map(message).collect();
    cases.push(list("1,000 devices", &devices));
}

/// What the gate replays: the small edges, the first lists of 256 devices and more, random cases, one that is cut short.
pub fn sample() -> Case {
    let mut rng = Rng::new(1);
    let mut cases = small();
    let mut many = vec![];
    large(&mut many);
    cases.extend(many.into_iter().take(3));
    cases.extend((0..20).map(|_| few(&mut rng)));
    cases.push(cut(&mut rng, 0, list("cut", &[message(1)])));
    Case {
        label: "directed cases, then random ones".to_string(),
        bytes: cases.into_iter().flat_map(|c| c.bytes).collect(),
        short: true,
    }
}

pub fn random(rng: &mut Rng) -> Case {
    let whole = match rng.below(20) {
        0 => any(rng, MOST_RECORDS, 300),
        1 => around_the_most(rng),
        _ => few(rng),
    };
    if rng.chance(0.01) { cut(rng, 0, whole) } else { whole }
}

fn few(rng: &mut Rng) -> Case {
    any(rng, 12, 4)
}

/// Frames and messages of some devices; a third of the lists is spoiled.
fn any(rng: &mut Rng, most: usize, most_devices: usize) -> Case {
    let (count, devices) = (rng.below(most + 1), rng.range(1, most_devices));
    let offset = rng.pick(&[0, 0x7fff_fffe, 0xffff_0000]);
    let records: Vec<Record> = (0..count).map(|_| any_record(rng, offset, devices)).collect();
    handed(rng, format!("{count} records"), records)
}

fn any_record(rng: &mut Rng, offset: u32, devices: usize) -> Record {
    let record = Record::noise(rng).device(offset + rng.below(devices) as u32);
    let record = match rng.below(4) {
        0 => record
            .kind(FRAME)
            .ranks(rng.next() as u8)
            .rssi(f32::from_bits(rng.next() as u32)),
        1 => record.clock_ppm(rng.below(200) as i32 - 100),
        _ => record,
    };
    if rng.chance(0.2) {
        record.rssi(rng.pick(&rssi_values()))
    } else {
        record
    }
}

/// 250 to 260 devices with one message or some, and frames of others.
fn around_the_most(rng: &mut Rng) -> Case {
    let devices = rng.range(250, 260);
    let mut records: Vec<Record> = (0..devices).map(|d| Record::noise(rng).device(d as u32)).collect();
    for _ in 0..rng.below(200) {
        let kind = rng.pick(&[FRAME, MESSAGE]);
        let other = if kind == FRAME { 1000 } else { devices };
        records.push(Record::noise(rng).kind(kind).device(rng.below(other) as u32));
    }
    given::shuffle(rng, &mut records);
    handed(rng, format!("{devices} devices"), records)
}

fn handed(rng: &mut Rng, label: String, records: Vec<Record>) -> Case {
    let bytes = if rng.chance(0.3) {
        given::spoiled(rng, records)
    } else {
        given::bytes(&records)
    };
    let places = if rng.chance(0.05) {
        rng.below(PLACES.into())
    } else {
        rng.range(PLACES.into(), MOST_PLACES.into())
    };
    let other = rng.next() as i64;
    let fill = rng.pick(&[0, 1, -1, i64::MIN, other]);
    of(label, places as u16, fill, &bytes)
}

#[cfg(test)]
mod tests {
    use super::*;
    use crate::oracle::lines;

    #[test]
    fn lines_of_the_examples() {
        let mut cases = vec![];
        examples(&mut cases);
        let input: Vec<u8> = cases.into_iter().flat_map(|c| c.bytes).collect();
        let expected =
            "F 2\n2 1 0 1 0 -3 -3 -200 1\n5 2 1 0 1 -20 10 -100 2\nK 2286\nF 0\nK 2304\nR 12\nK 2304\nR 2\nK 2303\n";
        assert_eq!(lines("fleet", &input).as_deref(), Some(expected));
    }
}
