//! Event records to be handed in to a report, by their places in docs/RECORD.md.

use super::rng::Rng;

pub const RECORD: usize = 120;
pub const FRAME: u8 = 1;
pub const MESSAGE: u8 = 2;
/// Records of the longest list that a program is handed.
pub const MOST_RECORDS: usize = 1000;

/// Kinds that there aren't.
pub const UNKNOWN: [u8; 9] = [0, 3, 4, 127, 128, 129, 130, 254, 255];
/// Sums that no ranks have.
pub const NO_RANKS: [u8; 8] = [0, 8, 9, 16, 127, 128, 135, 255];

/// The least number over 0.
pub const LEAST: f64 = f64::from_bits(1);

/// A record before it is handed in.
#[derive(Clone)]
pub struct Record([u8; RECORD]);

impl Record {
    /// Rank 0 at -50 dBm, without a span; all else is 0.
    pub fn plain(kind: u8) -> Self {
        let record = Self([0; RECORD]).kind(kind).rssi(-50.0).no_spans();
        if kind == MESSAGE { record.ranks(1) } else { record }
    }

    /// A message that is accepted, with something in every byte: what isn't read must not show.
    pub fn noise(rng: &mut Rng) -> Self {
        let bytes: Vec<u8> = rng.bytes(RECORD);
        let rssi = rng.real(-200.0, 100.0) as f32;
        let record = Self(bytes.try_into().expect("so many bytes"));
        record.kind(MESSAGE).ranks(rng.range(1, 7) as u8).rssi(rssi)
    }

    fn put(mut self, at: usize, bytes: &[u8]) -> Self {
        self.0[at..at + bytes.len()].copy_from_slice(bytes);
        self
    }

    pub fn kind(self, kind: u8) -> Self {
        self.put(0, &[kind])
    }

    pub fn ranks(self, sum: u8) -> Self {
        self.put(1, &[sum])
    }

    pub fn device(self, device: u32) -> Self {
        self.put(8, &device.to_le_bytes())
    }

    pub fn clock_ppm(self, ppm: i32) -> Self {
        self.put(36, &ppm.to_le_bytes())
    }

    pub fn rssi(self, dbm: f32) -> Self {
        self.put(40, &dbm.to_le_bytes())
    }

    pub fn time(self, s: f64) -> Self {
        self.put(48, &s.to_le_bytes())
    }

    pub fn no_spans(self) -> Self {
        self.put(44, &[255; 3])
    }

    pub fn span(self, place: usize, rank: u8, begin: f64, end: f64) -> Self {
        let record = self.put(44 + place, &[rank]);
        let record = record.put(64 + 16 * place, &begin.to_le_bytes());
        record.put(72 + 16 * place, &end.to_le_bytes())
    }
}

pub fn bytes(records: &[Record]) -> Vec<u8> {
    records.iter().flat_map(|r| r.0).collect()
}

/// NaN by several patterns, and the infinities.
pub fn not_finite() -> [f64; 7] {
    [
        0x7ff8_0000_0000_0000,
        0xfff8_0000_0000_0000,
        0x7ff0_0000_0000_0001,
        0xfff0_0000_0000_0001,
        u64::MAX,
        f64::INFINITY.to_bits(),
        f64::NEG_INFINITY.to_bits(),
    ]
    .map(f64::from_bits)
}

/// RSSI values of messages that are refused.
pub fn bad_rssi() -> Vec<f32> {
    let patterns = [
        0x7fc0_0000,
        0xffc0_0000,
        0x7f80_0001,
        0xff80_0001,
        0x7fbf_ffff,
        0xffff_ffff,
    ];
    let mut list = vec![
        (-200f32).next_down(),
        100f32.next_up(),
        100.5,
        -201.0,
        f32::MAX,
        f32::MIN,
        f32::INFINITY,
        f32::NEG_INFINITY,
    ];
    list.extend(patterns.map(f32::from_bits));
    list
}

/// Lists that are refused with 12: each cause alone, at the front, in the middle and at the end of three records.
pub fn bad_lists() -> Vec<(String, Vec<u8>)> {
    let mut bad: Vec<(String, Record)> = vec![];
    let message = Record::plain(MESSAGE).device(7);
    for kind in UNKNOWN {
        bad.push((format!("kind {kind}"), message.clone().kind(kind)));
    }
    for sum in NO_RANKS {
        bad.push((format!("ranks {sum}"), message.clone().ranks(sum)));
    }
    for rssi in bad_rssi() {
        let label = format!("RSSI {:08x}", rssi.to_bits());
        bad.push((label, message.clone().rssi(rssi)));
    }
    let mut lists: Vec<(String, Vec<u8>)> = bad
        .into_iter()
        .enumerate()
        .map(|(i, (label, record))| {
            let mut three = vec![message.clone(), Record::plain(FRAME)];
            three.insert(i % 3, record);
            (label, bytes(&three))
        })
        .collect();
    for length in [1, 2, 8, 60, 119, 121, 179, 239, 241, 359] {
        let list = bytes(&[message.clone(), Record::plain(FRAME), message.clone()]);
        lists.push((format!("{length} bytes"), list[..length].to_vec()));
    }
    lists
}

/// Frames are skipped whatever they hold: byte 1 and RSSI are those of a message that is refused.
pub fn odd_frames() -> Vec<Record> {
    let frame = Record::plain(FRAME).device(3);
    let ranks = NO_RANKS.map(|sum| frame.clone().ranks(sum));
    let rssi = bad_rssi().into_iter().map(|rssi| frame.clone().rssi(rssi));
    ranks.into_iter().chain(rssi).collect()
}

/// The list with one thing spoiled, so that it is refused with 12, but for ranks and RSSI of a frame.
pub fn spoiled(rng: &mut Rng, mut records: Vec<Record>) -> Vec<u8> {
    if records.is_empty() || rng.chance(0.3) {
        let n = rng.range(1, RECORD - 1);
        let part = rng.bytes(n);
        return [bytes(&records), part].concat();
    }
    let at = rng.below(records.len());
    let record = records[at].clone();
    records[at] = match rng.below(3) {
        0 => record.kind(rng.pick(&UNKNOWN)),
        1 => record.ranks(rng.pick(&NO_RANKS)),
        _ => record.rssi(rng.pick(&bad_rssi())),
    };
    bytes(&records)
}

pub fn shuffle(rng: &mut Rng, records: &mut [Record]) {
    for i in (1..records.len()).rev() {
        records.swap(i, rng.below(i + 1));
    }
}
