//! Rows of the receiver over raw samples in pushes of one size: the Rust here, the port as the program `bench_receiver`. Its loop asks whether a push
//! only adds its samples, and calls `add_raw` or `push_raw`. "asked first": by `SigfoxReceiver::adds_raw`, which tests all that is held; "order proved":
//! by `receiver_grown::adds_raw`, which needs no such test.

use super::{Row, programs};
use crate::generate::load::air;
use crate::rust::receiver::SigfoxReceiver;

const SECONDS: usize = 600;

/// Rate, samples a push, whether the order of what is held is proved, and how the row names them.
const LOADS: [(u32, usize, bool, &str); 4] = [
    (1000, 8, false, "1,000/s, pushes of 8 samples, asked first"),
    (1000, 8, true, "1,000/s, pushes of 8 samples, order proved"),
    (1000, 1000, false, "1,000/s, pushes of 1 s, asked first"),
    (4000, 4000, false, "4,000/s, pushes of 1 s, asked first"),
];

pub fn rows() -> Result<Vec<Row>, String> {
    LOADS.iter().map(row).collect()
}

fn row(&(rate, step, proved, how): &(u32, usize, bool, &str)) -> Result<Row, String> {
    let raw = air(rate, SECONDS);
    let head = [rate, step as u32, proved.into()].map(u32::to_le_bytes).concat();
    let input = [head, raw.clone()].concat();
    let what = format!("events, {SECONDS} s at {how}");
    programs::row("receiver.rs", what, "bench_receiver", &input, move || {
        line(rate, step, &raw)
    })
}

/// How many records there were, and that no call was refused.
fn line(rate: u32, step: usize, raw: &[u8]) -> String {
    let mut receiver = SigfoxReceiver::new(rate);
    let pushed: usize = raw.chunks(step).map(|piece| receiver.push_raw(piece).len()).sum();
    format!("{} 0\n", pushed + receiver.flush().len())
}
