//! What docs/SIGNAL.md shows and says was run: needs the Rust's text.
#![cfg(has_rust)]

use std::path::Path;

use host::generate::signal::{Air, Shape};
use host::rust::frame::{DeviceId, UplinkFields, encode_uplink, uplink_header};
use host::rust::receiver::{FRAME_GAP_S, ReceiverEvent, SigfoxReceiver};

const RATE: u32 = 1000;

#[test]
fn the_drawing_is_kept() {
    let path = Path::new(env!("CARGO_MANIFEST_DIR")).join("../docs/signal.svg");
    let kept = std::fs::read_to_string(path).expect("it can be read");
    assert!(kept == host::draw::signal(), "host/draw > docs/signal.svg");
}

/// Ranks 0 and 2 of a message with so many bytes of payload, from 1 s on; rank 1 is not sent.
fn without_frame_2(bytes: usize) -> Vec<f32> {
    let fields = UplinkFields {
        device_id: DeviceId(0x00c0_ffee),
        counter: 291,
        payload: &vec![0x5a; bytes],
        bit: None,
        downlink: false,
    };
    let auth = vec![0xaa; uplink_header(&fields).auth_size];
    let shape = Shape {
        tail: 1.0,
        ..Shape::clean(-80.0)
    };
    let mut air = Air::quiet(RATE, 30_000, -118.0);
    for rank in [0, 2] {
        let envelope = shape.envelope(&encode_uplink(&fields, rank, &auth, false), RATE);
        let apart = envelope.len() + (FRAME_GAP_S * f64::from(RATE)) as usize;
        air.send(1000 + rank * apart, &envelope);
    }
    air.samples()
}

/// The ranks of each message, and when rank 2 was decoded, in tenths of a second after rank 0's start.
fn heard(dbm: &[f32]) -> (Vec<Vec<usize>>, Option<u32>) {
    let (mut receiver, mut messages, mut decoded) = (SigfoxReceiver::new(RATE), vec![], None);
    for push in dbm.chunks(8) {
        for event in receiver.push(push) {
            match event {
                ReceiverEvent::Message(m) => messages.push(m.ranks),
                ReceiverEvent::Frame(d) if d.frame.rank == 2 => {
                    decoded = Some((10.0 * (receiver.time() - 1.0)).round() as u32);
                }
                ReceiverEvent::Frame(_) => {}
            }
        }
    }
    (messages, decoded)
}

#[test]
fn ten_seconds_bridge_a_lost_frame_2_up_to_4_bytes() {
    for bytes in [0, 1, 4] {
        assert_eq!(heard(&without_frame_2(bytes)).0, [vec![0, 2]], "{bytes}");
    }
    for (bytes, tenths) in [(5, 106), (8, 106), (9, 116), (12, 116)] {
        let expected = (vec![vec![0], vec![2]], Some(tenths));
        assert_eq!(heard(&without_frame_2(bytes)), expected, "{bytes}");
    }
}
