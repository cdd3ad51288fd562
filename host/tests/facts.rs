//! Facts about the Rust that the papers state, so that the Rust as built here is the one they speak of.
#![cfg(has_rust)]

use host::oracle::lines;
use host::rust::demod::{BIT_RATE, find_dips, noise_floor, round};
use host::rust::frame::{DeviceId, UplinkFields, crc16, deconvolve, encode_uplink, uplink_header};
use host::rust::frequency::{cfo_signed, cfo_step_hz};
use host::rust::receiver::{ReceiverEvent, SigfoxMessage, SigfoxReceiver};

/// A message of two payload bytes; its frame lasts 1.45 s.
fn bits(rank: usize) -> Vec<bool> {
    let fields = UplinkFields {
        device_id: DeviceId(0x1234),
        counter: 7,
        payload: &[0xab, 0xcd],
        bit: None,
        downlink: false,
    };
    encode_uplink(&fields, rank, &[1, 2, 3, 4], false)
}

/// Puts a frame into samples: a dip of one bit's fifth on the boundary before each bit 0, and one bit more at the end.
fn send(dbm: &mut [f32], rate: usize, start: usize, rank: usize, level: f32) {
    let bits = bits(rank);
    let per_bit = rate / 100;
    for i in 0..(bits.len() + 1) * per_bit {
        let boundary = (i + per_bit / 2) / per_bit;
        let off = i.abs_diff(boundary * per_bit);
        let dip = boundary > 0 && bits.get(boundary) == Some(&false) && off * 5 <= per_bit;
        let depth = if dip { 24.0 - 4.0 * off as f32 } else { 0.0 };
        dbm[start + i] = dbm[start + i].max(level - depth);
    }
}

fn air(rate: usize, samples: usize, frames: &[(usize, usize)]) -> Vec<f32> {
    let mut dbm = vec![-110.0; samples];
    for &(rank, start) in frames {
        send(&mut dbm, rate, start, rank, -60.0);
    }
    dbm
}

fn pushes(receiver: &mut SigfoxReceiver, dbm: &[f32], n: usize) -> Vec<ReceiverEvent> {
    dbm.chunks(n).flat_map(|chunk| receiver.push(chunk)).collect()
}

fn starts(events: &[ReceiverEvent]) -> Vec<usize> {
    let frames = events.iter().filter_map(|e| match e {
        ReceiverEvent::Frame(d) => Some(d.start),
        ReceiverEvent::Message(_) => None,
    });
    frames.collect()
}

fn messages(events: &[ReceiverEvent]) -> Vec<&SigfoxMessage> {
    let messages = events.iter().filter_map(|e| match e {
        ReceiverEvent::Frame(_) => None,
        ReceiverEvent::Message(m) => Some(m),
    });
    messages.collect()
}

#[test]
fn small_functions() {
    assert_eq!(crc16(&[]), 0xffff);
    assert_eq!(crc16(&[1]), 0xefde);
    assert_eq!(crc16(b"123456789"), 0xce3c);
    assert_eq!([0x7ff, 0x800, 0xfff].map(cfo_signed), [2047, -2048, -1]);
    assert_eq!(cfo_step_hz(0x0a, 100), 122.0703125);
    assert_eq!(cfo_step_hz(0x0a, 50_000), 122.0703125);
    assert_eq!(deconvolve(&[true, false, false], 1), [true, true, false]);
    assert_eq!(deconvolve(&[true, false, false], 2), [true, false, true]);
    assert_eq!(noise_floor(&[]), -120.0);
    assert_eq!((round(2.5), round(-2.5)), (3.0, -2.0));
    let header = uplink_header(&UplinkFields {
        device_id: DeviceId(0),
        counter: 0xf123,
        payload: &[1, 2],
        bit: None,
        downlink: false,
    });
    assert_eq!((header.bytes[0], header.bytes[1], header.auth_size), (0x81, 0x23, 4));
}

#[test]
fn listen_on_one_record() {
    let record = [&[200; 8][..], &[0; 2], &868_130_000u32.to_le_bytes(), &[0; 2]].concat();
    assert_eq!(lines("listen", &record).as_deref(), Some("E 8 0 0 0\n"));
    assert_eq!(lines("listen", &[]).as_deref(), Some("E 0 0 0 0\n"));
}

#[test]
fn dips() {
    let count = |places: &[(usize, f32)], level: f64| {
        let mut seg = vec![-60.0; 60];
        for &(at, v) in places {
            seg[at] = v;
        }
        find_dips(&seg, 1000.0 / f64::from(BIT_RATE), level).len()
    };
    assert_eq!(count(&[(30, -66.0)], -60.0), 0);
    assert_eq!(count(&[(30, -66.5)], -60.0), 1);
    assert_eq!(count(&[(30, -80.0), (34, -80.0)], -60.0), 1);
    assert_eq!(count(&[(30, -80.0), (35, -80.0)], -60.0), 2);
    assert_eq!((count(&[(30, -80.0)], -35.0), count(&[(30, -80.0)], -34.9)), (1, 0));
}

/// The distance of starts is 0.3 of the rate, unrounded.
#[test]
fn a_start_that_moves() {
    for (lead, frames) in [(60, 1), (61, 2)] {
        let mut dbm = air(201, 4000, &[(0, 1005)]);
        dbm[1005 - lead..1005].fill(-100.0);
        dbm[7 * 201..].fill(-120.0);
        let events = pushes(&mut SigfoxReceiver::new(201), &dbm, 101);
        assert_eq!(starts(&events).len(), frames, "{lead}");
    }
}

/// Times are sums of two quotients: this decides closings.
#[test]
fn closing_after_10_s() {
    for (start, newest) in [(10_713, 20_714), (10_702, 20_702)] {
        let dbm = air(1000, 21_000, &[(0, start)]);
        let mut receiver = SigfoxReceiver::new(1000);
        assert_eq!(
            messages(&pushes(&mut receiver, &dbm[..newest - 1], 1)).len(),
            0,
            "{start}"
        );
        assert_eq!(messages(&receiver.push(&dbm[newest - 1..newest])).len(), 1, "{start}");
    }
}

/// A scan at each filling, not at each half second; the frame joined last need not be the latest.
#[test]
fn a_floor_that_sinks() {
    let mut dbm = vec![-110.0; 12_000];
    dbm[7400..].fill(-120.0);
    send(&mut dbm, 1000, 5000, 0, -100.0);
    send(&mut dbm, 1000, 7500, 0, -60.0);
    let mut chunked = SigfoxReceiver::new(1000);
    let events = pushes(&mut chunked, &dbm, 100);
    assert_eq!(starts(&events), [7500, 5000]);
    assert_eq!((chunked.pending[0].message.time, chunked.pending[0].last), (7.5, 5.0));
    let mut whole = SigfoxReceiver::new(1000);
    assert_eq!(starts(&whole.push(&dbm)), [5000, 7500]);
    assert_eq!(whole.pending[0].message.time, 5.0);
}

#[test]
fn a_flush_leaves_the_unscanned_count() {
    let mut receiver = SigfoxReceiver::new(1000);
    receiver.push(&[-110.0; 499]);
    receiver.flush();
    assert_eq!(receiver.since_scan, 499);
    receiver.push(&[-110.0]);
    assert_eq!(receiver.since_scan, 0);
}

#[test]
fn a_burst_at_buffer_index_0() {
    for (start, frames) in [(0, 0), (1, 1)] {
        let dbm = air(1000, 4000, &[(0, start)]);
        assert_eq!(starts(&SigfoxReceiver::new(1000).push(&dbm)).len(), frames);
    }
}

#[test]
fn merging() {
    let after = |frames: &[(usize, usize)]| {
        let mut receiver = SigfoxReceiver::new(1000);
        let mut events = receiver.push(&air(1000, 12_000, frames));
        events.extend(receiver.flush());
        let messages = messages(&events);
        assert_eq!(messages.len(), 1);
        messages[0].clone()
    };
    let twice = after(&[(0, 1000), (0, 4000)]);
    assert_eq!(
        (twice.ranks, twice.time, twice.first_frame_end),
        (vec![0], 1.0, Some(5.45))
    );
    assert_eq!((twice.frames[0].time, twice.frames[0].end), (1.0, 2.45));
    let arrival: Vec<usize> = after(&[(1, 1000), (0, 4000)]).frames.iter().map(|f| f.rank).collect();
    assert_eq!(arrival, [1, 0]);
    let four = after(&[(0, 1000), (1, 3500), (2, 6000), (0, 8500)]);
    assert_eq!((four.ranks.len(), four.first_frame_end), (3, Some(9.95)));
    assert_eq!(after(&[(1, 3000)]).first_frame_end, Some(0.5699999999999998));
}
