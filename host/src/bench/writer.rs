//! The uplink writer, by a function of the crate `bench`, beside three calls of the Rust's `encode_uplink`.

use super::Row;
use crate::rust::frame::{DeviceId, UplinkFields, encode_uplink};

/// Places of a repetition.
const PLACES: usize = 212;
const ALL_PLACES: usize = 3 * PLACES;
const TIMES: usize = 1000;

unsafe extern "C" {
    fn bench_write_uplink(
        device: u32,
        counter: u16,
        payload: *const u8,
        payload_len: usize,
        auth: *const u8,
        auth_len: usize,
        out: *mut u8,
        out_len: usize,
    ) -> usize;
}

#[derive(Clone)]
struct Message {
    device: u32,
    counter: u16,
    payload: Vec<u8>,
    auth: Vec<u8>,
}

/// The repetitions of a message, a byte a bit, and how many bits each has.
fn port(m: &Message) -> ([u8; ALL_PLACES], usize) {
    let mut out = [0; ALL_PLACES];
    // The function reads and writes the slices within their lengths.
    let count = unsafe {
        bench_write_uplink(
            m.device,
            m.counter,
            m.payload.as_ptr(),
            m.payload.len(),
            m.auth.as_ptr(),
            m.auth.len(),
            out.as_mut_ptr(),
            out.len(),
        )
    };
    (out, count)
}

fn rust(m: &Message) -> [Vec<bool>; 3] {
    let fields = UplinkFields {
        device_id: DeviceId(m.device),
        counter: m.counter,
        payload: &m.payload,
        bit: None,
        downlink: false,
    };
    [0, 1, 2].map(|rank| encode_uplink(&fields, rank, &m.auth, false))
}

pub fn rows() -> Vec<Row> {
    let message = Message {
        device: 0x00c0_ffee,
        counter: 291,
        payload: (0..12).map(|i| 0x10 + 0x11 * i).collect(),
        auth: vec![0xaa, 0x55],
    };
    let (out, count) = port(&message);
    for (rank, bits) in rust(&message).iter().enumerate() {
        let written: Vec<bool> = out[PLACES * rank..][..count].iter().map(|&b| b == 1).collect();
        assert_eq!(written[20..], bits[16..], "behind the preambles the two agree");
    }
    let label = "three repetitions of a 12-byte frame".to_string();
    vec![Row::new("writer", TIMES, label, message, rust, port)]
}
