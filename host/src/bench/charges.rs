//! The charges of a million records, by a function of the crate `bench_charges`, beside a plain one that looks its day up among the midnights.

use super::Row;

const RECORD: usize = 120;
const RECORDS: usize = 1_000_000;
const FRAME: u8 = 1;
const MESSAGE: u8 = 2;
const DAYS: usize = 31;
const DAY_S: i64 = 86_400;
const START: i64 = 1_000_000;

/// The plan of `bench_charges`: a fee, an allowance a day, and steps with their upper counts, the last of which is open.
const FEE: u64 = 500;
const ALLOWANCE: u64 = 1000;
const STEPS: [(u64, u64); 3] = [(10_000, 700), (20_000, 400), (u64::MAX, 250)];

unsafe extern "C" {
    fn bench_charges(records: *const u8, records_len: usize, month_start: i64) -> u64;
}

fn port(records: &Vec<u8>) -> u64 {
    // The function reads the slice within its length.
    unsafe { bench_charges(records.as_ptr(), records.len(), START) }
}

fn day_cost(messages: u64) -> u64 {
    let extra = messages.saturating_sub(ALLOWANCE);
    let mut passed = 0;
    let mut sum = 0;
    for (upper, price) in STEPS {
        let end = extra.min(upper);
        sum += (end - passed) * price;
        passed = end;
    }
    sum
}

/// The same in one pass; 0 where the records are refused.
fn rust(records: &Vec<u8>) -> u64 {
    if records.len() % RECORD != 0 {
        return 0;
    }
    let midnights: Vec<f64> = (0..=DAYS as i64).map(|k| (START + DAY_S * k) as f64).collect();
    let mut counts = [0; DAYS];
    for record in records.chunks_exact(RECORD) {
        let rssi = f32::from_le_bytes(record[40..44].try_into().expect("four bytes"));
        let time = f64::from_le_bytes(record[48..56].try_into().expect("eight bytes"));
        match record[0] {
            FRAME => continue,
            MESSAGE if (-200.0..=100.0).contains(&rssi) && (1..=7).contains(&record[1]) => {}
            _ => return 0,
        }
        match midnights.partition_point(|&midnight| midnight <= time) {
            day @ 1..=DAYS => counts[day - 1] += 1,
            _ => return 0,
        }
    }
    FEE + counts.into_iter().map(day_cost).sum::<u64>().div_ceil(1000)
}

/// A million messages at any times of a month, in any order, with one frame in eight.
fn records() -> Vec<u8> {
    let mut state: u64 = 0x9e37_79b9_7f4a_7c15;
    let mut next = move || {
        state ^= state << 13;
        state ^= state >> 7;
        state ^= state << 17;
        state >> 11
    };
    let mut records = vec![0; RECORD * RECORDS];
    for record in records.chunks_exact_mut(RECORD) {
        record[0] = if next() % 8 == 0 { FRAME } else { MESSAGE };
        record[1] = 1 + (next() % 7) as u8;
        record[40..44].copy_from_slice(&(-(next() as f32 / 2f32.powi(53)) * 120.0).to_le_bytes());
        let share = next() as f64 / 2f64.powi(53);
        let time = START as f64 + share * (DAY_S * DAYS as i64) as f64;
        record[48..56].copy_from_slice(&time.to_le_bytes());
    }
    records
}

pub fn rows() -> Vec<Row> {
    let records = records();
    let cents = rust(&records);
    assert!(cents > FEE, "there are extra messages");
    assert_eq!(cents, port(&records), "the two agree");
    let label = "a million records of a month".to_string();
    vec![Row::new("charges", 1, label, records, rust, port)]
}
