//! The C function, which decodes bits into a record, beside the Rust's `decode_uplink_bits`, which makes none.

use super::{Row, grouped};
use crate::decode::{RECORD, decode_bits};
use crate::generate::load;
use crate::rust::frame::decode_uplink_bits;

pub fn rows() -> Vec<Row> {
    let ranks = [0, 1, 2];
    let right = ranks.map(|rank| {
        row(
            1000,
            format!("12-byte frame, right, rank {rank}"),
            load::right_frame(rank),
        )
    });
    let short = ranks.map(|rank| beyond_repair(100, rank, 215));
    let long = ranks.map(|rank| beyond_repair(10, rank, 1024));
    right.into_iter().chain(short).chain(long).collect()
}

fn beyond_repair(times: usize, rank: usize, length: usize) -> Row {
    let label = format!("12-byte frame beyond repair, {} bits, rank {rank}", grouped(length));
    row(times, label, load::beyond_repair_of(rank, length))
}

fn row(times: usize, label: String, bits: Vec<bool>) -> Row {
    let bytes: Vec<u8> = bits.iter().map(|&b| b.into()).collect();
    Row::new(
        "frame.rs",
        times,
        label,
        (bits, bytes),
        |(bits, _)| decode_uplink_bits(bits),
        |(_, bytes)| {
            let mut record = [0; RECORD];
            (decode_bits(bytes, &mut record), record)
        },
    )
}
