//! The 120-byte event record of 01's table, as compared: a zero is +0.

use crate::depth::First;
use crate::rust::demod::DecodedFrame;
use crate::rust::frame::{DeviceId, Repair, UplinkFrame};
use crate::rust::frequency::FrameSpan;
use crate::rust::receiver::SigfoxMessage;
use crate::text::{bits32, bits64};

pub const RECORD: usize = 120;

/// What a receiver adds to a frame.
#[derive(Default)]
pub struct Reception {
    /// Byte 33 (request 05)
    pub depth: u8,
    pub clock_error_ppm: i32,
    pub rssi: f32,
    pub time: f64,
    pub end: f64,
    pub start: usize,
}

struct Record([u8; RECORD]);

impl Record {
    fn put(&mut self, at: usize, bytes: &[u8]) {
        self.0[at..at + bytes.len()].copy_from_slice(bytes);
    }

    fn put_f64(&mut self, at: usize, x: f64) {
        self.put(at, &bits64(x).to_le_bytes());
    }
}

/// The fields that frames and messages share.
struct Common<'a> {
    device: u32,
    counter: u16,
    payload: &'a [u8],
    auth: &'a [u8],
    bit: Option<bool>,
    downlink: bool,
    control: bool,
    reception: Reception,
}

fn common(f: Common) -> Record {
    let mut r = Record([0; RECORD]);
    r.0[2] = u8::from(f.downlink)
        + 2 * u8::from(f.control)
        + 8 * u8::from(f.bit.is_some())
        + 16 * u8::from(f.bit == Some(true));
    r.0[3] = f.payload.len() as u8;
    r.0[4] = f.auth.len() as u8;
    r.put(8, &f.device.to_le_bytes());
    r.put(12, &f.counter.to_le_bytes());
    r.put(16, f.payload);
    r.put(28, f.auth);
    r.0[33] = f.reception.depth;
    r.put(36, &f.reception.clock_error_ppm.to_le_bytes());
    r.put(40, &bits32(f.reception.rssi).to_le_bytes());
    r.put(44, &[255; 3]);
    r.put_f64(48, f.reception.time);
    r.put_f64(56, f.reception.end);
    r.put(112, &(f.reception.start as u64).to_le_bytes());
    r
}

/// A repair's number and place.
pub fn repair(how: Option<Repair>) -> (u8, usize) {
    match how {
        None => (0, 0),
        Some(Repair::Inserted { bit: false, at }) => (1, at),
        Some(Repair::Inserted { bit: true, at }) => (2, at),
        Some(Repair::Deleted { at }) => (3, at),
        Some(Repair::Flipped { at }) => (4, at),
    }
}

pub fn frame(f: &UplinkFrame, reception: Reception) -> [u8; RECORD] {
    let mut r = common(Common {
        device: f.device_id.0,
        counter: f.counter,
        payload: &f.payload,
        auth: &f.auth,
        bit: f.bit,
        downlink: f.downlink,
        control: f.control,
        reception,
    });
    r.0[0] = 1;
    r.0[1] = f.rank as u8;
    r.0[2] += 4 * u8::from(f.crc_ok);
    let (number, place) = repair(f.repaired);
    r.0[5] = number;
    r.put(6, &(place as u16).to_le_bytes());
    r.0
}

/// A frame as a receiver hands it over.
pub fn received(d: &DecodedFrame) -> [u8; RECORD] {
    frame(
        &d.frame,
        Reception {
            depth: d.segment.byte(),
            clock_error_ppm: d.clock_error_ppm,
            rssi: d.rssi,
            time: d.time,
            end: d.end,
            start: d.start,
        },
    )
}

/// The message that a record was made of.
pub fn read_message(r: &[u8; RECORD]) -> SigfoxMessage {
    let u64_at = |at: usize| u64::from_le_bytes(r[at..at + 8].try_into().expect("eight bytes"));
    let f64_at = |at: usize| f64::from_bits(u64_at(at));
    let u32_at = |at: usize| u32::from_le_bytes(r[at..at + 4].try_into().expect("four bytes"));
    let frames: Vec<FrameSpan> = (0..3)
        .filter(|i| r[44 + i] != 255)
        .map(|i| FrameSpan {
            rank: r[44 + i].into(),
            time: f64_at(64 + 16 * i),
            end: f64_at(72 + 16 * i),
        })
        .collect();
    SigfoxMessage {
        device_id: DeviceId(u32_at(8)),
        counter: u16::from_le_bytes([r[12], r[13]]),
        payload: r[16..28.min(16 + usize::from(r[3]))].to_vec(),
        bit: (r[2] & 8 != 0).then_some(r[2] & 16 != 0),
        downlink: r[2] & 1 != 0,
        control: r[2] & 2 != 0,
        auth: r[28..33.min(28 + usize::from(r[4]))].to_vec(),
        start: u64_at(112) as usize,
        time: f64_at(48),
        first_frame_end: (r[2] & 32 != 0).then_some(f64_at(56)),
        depth: First::Given(r[33]),
        rssi: f32::from_bits(u32_at(40)),
        ranks: frames.iter().map(|f| f.rank).collect(),
        frames,
        clock_error_ppm: u32_at(36) as i32,
    }
}

/// A message with its mark of request 03.
pub fn message(m: &SigfoxMessage, mark: u8) -> [u8; RECORD] {
    let mut r = common(Common {
        device: m.device_id.0,
        counter: m.counter,
        payload: &m.payload,
        auth: &m.auth,
        bit: m.bit,
        downlink: m.downlink,
        control: m.control,
        reception: Reception {
            depth: m.depth.byte(),
            clock_error_ppm: m.clock_error_ppm,
            rssi: m.rssi,
            time: m.time,
            end: m.first_frame_end.unwrap_or(0.0),
            start: m.start,
        },
    });
    r.0[0] = 2;
    r.0[1] = m.ranks.iter().map(|&rank| 1 << rank).sum();
    r.0[2] += 4 + 32 * u8::from(m.first_frame_end.is_some());
    r.0[34] = mark;
    for (i, &FrameSpan { rank, time, end }) in m.frames.iter().enumerate() {
        r.0[44 + i] = rank as u8;
        r.put_f64(64 + 16 * i, time);
        r.put_f64(72 + 16 * i, end);
    }
    r.0
}
