//! The message that goes with a grip and the messages on air, of a million records, by functions of the crate `bench_grip`, beside plain ones.

use super::Row;

const RECORD: usize = 120;
const RECORDS: usize = 1_000_000;
const FRAME: u8 = 1;
const MESSAGE: u8 = 2;
const NO_RANK: u8 = 255;
/// Both calls ask for this second of a stream of a message a second
const INSTANT: f64 = 500_000.25;
const WITHIN: f64 = 2.0;

unsafe extern "C" {
    fn bench_nearest_message(records: *const u8, records_len: usize, grip: f64, within: f64) -> usize;
    fn bench_on_air(
        records: *const u8,
        records_len: usize,
        instant: f64,
        numbers: *mut u32,
        numbers_len: usize,
    ) -> usize;
}

fn port_nearest(records: &Vec<u8>) -> usize {
    // The function reads the slice within its length.
    unsafe { bench_nearest_message(records.as_ptr(), records.len(), INSTANT, WITHIN) }
}

fn port_on_air(records: &Vec<u8>) -> Vec<u32> {
    let mut numbers = vec![0; RECORDS];
    // The function reads and writes the slices within their lengths.
    let n = unsafe {
        bench_on_air(
            records.as_ptr(),
            records.len(),
            INSTANT,
            numbers.as_mut_ptr(),
            numbers.len(),
        )
    };
    numbers.truncate(n);
    numbers
}

fn float(record: &[u8], at: usize) -> f64 {
    f64::from_le_bytes(record[at..at + 8].try_into().expect("eight bytes"))
}

fn is_right(record: &[u8]) -> bool {
    let rssi = f32::from_le_bytes(record[40..44].try_into().expect("four bytes"));
    match record[0] {
        FRAME => true,
        MESSAGE => (-200.0..=100.0).contains(&rssi) && (1..=7).contains(&record[1]),
        _ => false,
    }
}

/// The nearest message's number; the highest number where there is none or the records are refused.
fn rust_nearest(records: &Vec<u8>) -> usize {
    let mut best = (f64::INFINITY, f64::INFINITY, usize::MAX);
    if records.len() % RECORD != 0 {
        return usize::MAX;
    }
    for (i, record) in records.chunks_exact(RECORD).enumerate() {
        if !is_right(record) {
            return usize::MAX;
        }
        let time = float(record, 48);
        let distance = (time - INSTANT).abs();
        if record[0] == MESSAGE && time.is_finite() && distance <= WITHIN && (distance, time) < (best.0, best.1) {
            best = (distance, time, i);
        }
    }
    best.2
}

fn is_on_air(record: &[u8]) -> bool {
    let span = |i: usize| {
        record[44 + i] != NO_RANK && float(record, 64 + 16 * i) <= INSTANT && INSTANT < float(record, 72 + 16 * i)
    };
    record[0] == MESSAGE && (0..3).any(span)
}

/// The numbers of the messages on air, in a list with a place for each record, which is written when all records were tested; none where they are refused.
fn rust_on_air(records: &Vec<u8>) -> Vec<u32> {
    let mut numbers = vec![0; RECORDS];
    let mut found = vec![];
    if records.len() % RECORD != 0 {
        return vec![];
    }
    for (i, record) in records.chunks_exact(RECORD).enumerate() {
        if !is_right(record) {
            return vec![];
        }
        if is_on_air(record) {
            found.push(i as u32);
        }
    }
    numbers[..found.len()].copy_from_slice(&found);
    numbers.truncate(found.len());
    numbers
}

/// A million records, a second apart with some scatter, one frame in eight, each message with one to three spans of two seconds.
fn records() -> Vec<u8> {
    let mut state: u64 = 0x9e37_79b9_7f4a_7c15;
    let mut next = move || {
        state ^= state << 13;
        state ^= state >> 7;
        state ^= state << 17;
        state >> 11
    };
    let mut records = vec![0; RECORD * RECORDS];
    for (i, record) in records.chunks_exact_mut(RECORD).enumerate() {
        let time = i as f64 + next() as f64 / 2f64.powi(53);
        let spans = 1 + (next() % 3) as usize;
        record[0] = if next() % 8 == 0 { FRAME } else { MESSAGE };
        record[1] = (1 << spans) - 1;
        record[40..44].copy_from_slice(&(-(next() as f32 / 2f32.powi(53)) * 120.0).to_le_bytes());
        record[48..56].copy_from_slice(&time.to_le_bytes());
        for j in 0..3 {
            record[44 + j] = if j < spans { j as u8 } else { NO_RANK };
            let begin = time + 2.5 * j as f64;
            record[64 + 16 * j..72 + 16 * j].copy_from_slice(&begin.to_le_bytes());
            record[72 + 16 * j..80 + 16 * j].copy_from_slice(&(begin + 2.0).to_le_bytes());
        }
    }
    records
}

pub fn rows() -> Vec<Row> {
    let records = records();
    assert!(rust_nearest(&records) < RECORDS, "a message is near");
    assert_eq!(rust_nearest(&records), port_nearest(&records), "the two agree");
    assert!(!rust_on_air(&records).is_empty(), "some are on air");
    assert_eq!(rust_on_air(&records), port_on_air(&records), "the two agree");
    let nearest = "nearest of a million records".to_string();
    let on_air = "on air, of a million records".to_string();
    vec![
        Row::new("grip", 1, nearest, records.clone(), rust_nearest, port_nearest),
        Row::new("grip", 1, on_air, records, rust_on_air, port_on_air),
    ]
}
