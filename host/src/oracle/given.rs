//! Event records that are handed in to a report: fields by their places in docs/RECORD.md; refusals 3 and 12 of a list.

use super::record::RECORD;
use crate::limits;

const FRAME: u8 = 1;
const MESSAGE: u8 = 2;
const MOST_BYTES: usize = 120_000_000;
const SPANS: usize = 3;
const NO_SPAN: u8 = 255;

/// A message record, and its number among all records of the list, from 0.
pub struct Message<'a> {
    pub number: usize,
    bytes: &'a [u8; RECORD],
}

impl Message<'_> {
    fn at<const N: usize>(&self, place: usize) -> [u8; N] {
        *self.bytes[place..].first_chunk().expect("the place lies in the record")
    }

    /// The sum of 1, 2, 4 for ranks 0, 1, 2.
    pub fn ranks(&self) -> u8 {
        self.bytes[1]
    }

    pub fn device(&self) -> u32 {
        u32::from_le_bytes(self.at(8))
    }

    pub fn clock_ppm(&self) -> i32 {
        i32::from_le_bytes(self.at(36))
    }

    pub fn rssi(&self) -> f32 {
        f32::from_le_bytes(self.at(40))
    }

    pub fn time(&self) -> f64 {
        f64::from_le_bytes(self.at(48))
    }

    /// Begin and end of each span whose rank byte isn't 255.
    pub fn spans(&self) -> impl Iterator<Item = (f64, f64)> {
        let there = (0..SPANS).filter(|i| self.bytes[44 + i] != NO_SPAN);
        there.map(|i| {
            let at = 64 + 16 * i;
            (f64::from_le_bytes(self.at(at)), f64::from_le_bytes(self.at(at + 8)))
        })
    }
}

/// The message records of a list, or its refusal.
pub fn messages(records: &[u8]) -> Result<Vec<Message<'_>>, u8> {
    limits::at_most(records.len(), MOST_BYTES)?;
    let (records, rest) = records.as_chunks();
    limits::records(rest.is_empty())?;
    let mut messages = vec![];
    for (number, bytes) in records.iter().enumerate() {
        let kind = bytes[0];
        limits::records(kind == FRAME || kind == MESSAGE)?;
        if kind == MESSAGE {
            let message = Message { number, bytes };
            limits::records((-200.0..=100.0).contains(&message.rssi()))?;
            limits::records((1..=7).contains(&message.ranks()))?;
            messages.push(message);
        }
    }
    Ok(messages)
}

/// How many places past the answer hold the fill.
pub fn kept<T: PartialEq>(past: &[T], fill: T) -> String {
    format!("K {}", past.iter().filter(|&place| *place == fill).count())
}
