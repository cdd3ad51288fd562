//! The fleet report of a million records, by a function of the crate `bench_fleet`, beside a plain one with a `BTreeMap`.

use std::collections::BTreeMap;

use super::Row;

const RECORD: usize = 120;
const RECORDS: usize = 1_000_000;
const DEVICES: u64 = 256;
const PLACES: usize = 2304;
const FRAME: u8 = 1;
const MESSAGE: u8 = 2;

unsafe extern "C" {
    fn bench_fleet_report(records: *const u8, records_len: usize, rows: *mut i64, rows_len: usize) -> usize;
}

fn port(records: &Vec<u8>) -> Vec<i64> {
    let mut rows = vec![0; PLACES];
    // The function reads and writes the slices within their lengths.
    let n = unsafe { bench_fleet_report(records.as_ptr(), records.len(), rows.as_mut_ptr(), rows.len()) };
    rows.truncate(9 * n);
    rows
}

#[derive(Default)]
struct Device {
    by_ranks: [i64; 3],
    lowest: i64,
    highest: i64,
    halves: i64,
}

/// The same by a map; no rows where the records are refused.
fn rust(records: &Vec<u8>) -> Vec<i64> {
    let mut devices: BTreeMap<u32, Device> = BTreeMap::new();
    if records.len() % RECORD != 0 {
        return vec![];
    }
    for record in records.chunks_exact(RECORD) {
        let four = |at: usize| u32::from_le_bytes(record[at..at + 4].try_into().expect("four bytes"));
        let rssi = f32::from_bits(four(40));
        let ppm = i64::from(four(36).cast_signed());
        match record[0] {
            FRAME => continue,
            MESSAGE if (-200.0..=100.0).contains(&rssi) && (1..=7).contains(&record[1]) => {}
            _ => return vec![],
        }
        let fresh = || Device {
            lowest: ppm,
            highest: ppm,
            ..Device::default()
        };
        let device = devices.entry(four(8)).or_insert_with(fresh);
        device.by_ranks[record[1].count_ones() as usize - 1] += 1;
        device.lowest = device.lowest.min(ppm);
        device.highest = device.highest.max(ppm);
        device.halves += (2.0 * f64::from(rssi)).floor() as i64;
    }
    if devices.len() > 256 {
        return vec![];
    }
    let row = |(&number, d): (&u32, &Device)| {
        let [one, two, three] = d.by_ranks;
        let count = one + two + three;
        [
            i64::from(number),
            count,
            one,
            two,
            three,
            d.lowest,
            d.highest,
            d.halves,
            count,
        ]
    };
    devices.iter().flat_map(row).collect()
}

/// A million messages of 256 devices whose numbers are any, in any order, with one frame in eight.
fn records() -> Vec<u8> {
    let mut state: u64 = 0x9e37_79b9_7f4a_7c15;
    let mut next = move || {
        state ^= state << 13;
        state ^= state >> 7;
        state ^= state << 17;
        state >> 11
    };
    let numbers: Vec<u32> = (0..DEVICES).map(|_| next() as u32).collect();
    let mut records = vec![0; RECORD * RECORDS];
    for record in records.chunks_exact_mut(RECORD) {
        record[0] = if next() % 8 == 0 { FRAME } else { MESSAGE };
        record[1] = 1 + (next() % 7) as u8;
        record[8..12].copy_from_slice(&numbers[(next() % DEVICES) as usize].to_le_bytes());
        record[36..40].copy_from_slice(&((next() % 20_001) as i32 - 10_000).to_le_bytes());
        record[40..44].copy_from_slice(&(-(next() as f32 / 2f32.powi(53)) * 120.0).to_le_bytes());
    }
    records
}

pub fn rows() -> Vec<Row> {
    let records = records();
    let rows = rust(&records);
    assert_eq!(rows.len(), 9 * DEVICES as usize, "every device has a message");
    assert_eq!(rows, port(&records), "the two agree");
    let label = "a million records of 256 devices".to_string();
    vec![Row::new("fleet", 1, label, records, rust, port)]
}
