//! `uplink`: README's lines of text, each a frame. The bits are those of `writer`, and so are the refusals.

use super::{line, writer};
use crate::limits::MOST_LINE;
use crate::rust::frame::{DeviceId, UplinkFields};
use crate::text::digits;

/// What a line says.
struct Frame {
    device: u32,
    counter: u16,
    payload: Vec<u8>,
    bit: Option<bool>,
    downlink: bool,
    auth: Vec<u8>,
}

/// Three lines of digits for each line, `R number`, or `?` and the line's number, from 1 on.
pub fn lines(input: &[u8]) -> String {
    let mut out = String::new();
    for (index, text) in input.split_inclusive(|&c| c == b'\n').enumerate() {
        match read(text.strip_suffix(b"\n").unwrap_or(text)) {
            Some(frame) => line(&mut out, frame.digits()),
            None => line(&mut out, Ok(format!("? {}", index + 1))),
        }
    }
    out
}

impl Frame {
    /// The repetitions, a line each, by rank.
    fn digits(&self) -> Result<String, u8> {
        let fields = UplinkFields {
            device_id: DeviceId(self.device),
            counter: self.counter,
            payload: &self.payload,
            bit: self.bit,
            downlink: self.downlink,
        };
        let repetitions = writer::repetitions(&fields, &self.auth)?;
        Ok(repetitions.map(|bits| digits(&bits)).join("\n"))
    }
}

/// None where the line isn't five such words with one space between each.
fn read(line: &[u8]) -> Option<Frame> {
    if line.len() > MOST_LINE {
        return None;
    }
    let words: Vec<&[u8]> = line.split(|&c| c == b' ').collect();
    let [device, counter, payload, downlink, auth] = words[..] else {
        return None;
    };
    let (payload, bit) = match payload {
        b"-" => (vec![], None),
        b"bit0" => (vec![], Some(false)),
        b"bit1" => (vec![], Some(true)),
        bytes => (hex(bytes)?, None),
    };
    Some(Frame {
        device: u32::from_be_bytes(hex(device)?.try_into().ok()?),
        counter: decimal(counter)?,
        payload,
        bit,
        downlink: match downlink {
            b"0" => false,
            b"1" => true,
            _ => return None,
        },
        auth: hex(auth)?,
    })
}

/// A number in decimal. One that a u16 can't hold is its highest value: over 4,095 too, so that it is refused.
fn decimal(word: &[u8]) -> Option<u16> {
    let digits = !word.is_empty() && word.iter().all(u8::is_ascii_digit);
    let text = str::from_utf8(word).ok().filter(|_| digits)?;
    Some(text.parse().unwrap_or(u16::MAX))
}

/// One byte or more, two hex digits of either case each.
fn hex(word: &[u8]) -> Option<Vec<u8>> {
    let (pairs, rest) = word.as_chunks::<2>();
    if pairs.is_empty() || !rest.is_empty() {
        return None;
    }
    pairs
        .iter()
        .map(|&[high, low]| Some(digit(high)? << 4 | digit(low)?))
        .collect()
}

fn digit(c: u8) -> Option<u8> {
    char::from(c).to_digit(16).map(|d| d as u8)
}
