//! `fleet`: the report of request 09, from 02's text; the Rust has none.

use std::collections::BTreeMap;

use super::given::{Message, kept, messages};
use super::line;
use crate::limits;
use crate::text::Input;

const NUMBERS: usize = 9;
const MOST_DEVICES: usize = 256;

type Row = [i64; NUMBERS];

pub fn case(input: &mut Input, out: &mut String) -> Option<()> {
    let (places, fill) = (input.u16()?, input.i64()?);
    let records = input.bytes()?;
    let mut list = vec![fill; places.into()];
    let answer = report(records, &mut list);
    let past = NUMBERS * answer.unwrap_or(0);
    line(out, answer.map(|rows| text(&list[..NUMBERS * rows])));
    line(out, Ok(kept(&list[past..], fill)));
    Some(())
}

/// How many rows the list has, or the refusal; it is written to only where nothing is refused.
fn report(records: &[u8], list: &mut [i64]) -> Result<usize, u8> {
    limits::lent(list.len(), NUMBERS * MOST_DEVICES)?;
    let rows = rows(&messages(records)?);
    limits::devices(rows.len() <= MOST_DEVICES)?;
    list[..NUMBERS * rows.len()].copy_from_slice(rows.as_flattened());
    Ok(rows.len())
}

/// One row a device, in rising device number.
fn rows(messages: &[Message]) -> Vec<Row> {
    let mut devices: BTreeMap<u32, Vec<&Message>> = BTreeMap::new();
    for message in messages {
        devices.entry(message.device()).or_default().push(message);
    }
    devices
        .iter()
        .map(|(&device, messages)| row(device, messages))
        .collect()
}

/// Device; messages; those with one, two and three ranks; lowest and highest clock error; sum of RSSI and its count.
fn row(device: u32, messages: &[&Message]) -> Row {
    let count = messages.len() as i64;
    let with = |n| messages.iter().filter(|m| m.ranks().count_ones() == n).count() as i64;
    let clocks = messages.iter().map(|m| i64::from(m.clock_ppm()));
    let lowest = clocks.clone().min().expect("a device has a message");
    let highest = clocks.max().expect("a device has a message");
    let rssi = messages.iter().map(|m| half_decibels(m.rssi())).sum();
    [
        device.into(),
        count,
        with(1),
        with(2),
        with(3),
        lowest,
        highest,
        rssi,
        count,
    ]
}

/// Rounded down; twice a binary32 number is exact.
fn half_decibels(dbm: f32) -> i64 {
    (2.0 * f64::from(dbm)).floor() as i64
}

fn text(rows: &[i64]) -> String {
    let lines = rows.chunks(NUMBERS).map(|row| {
        let numbers: Vec<String> = row.iter().map(i64::to_string).collect();
        format!("\n{}", numbers.join(" "))
    });
    format!("F {}{}", rows.len() / NUMBERS, lines.collect::<String>())
}

#[cfg(test)]
mod tests {
    use super::*;
    use crate::generate::given::{Record, bytes};
    use crate::generate::rng::Rng;

    /// Request 09: the sums over all devices equal those over all message records.
    #[test]
    fn sums_over_all_devices() {
        let mut rng = Rng::new(9);
        let records: Vec<Record> = (0..900)
            .map(|i| Record::noise(&mut rng).device(i % 256).kind(1 + u8::from(i % 3 > 0)))
            .collect();
        let bytes = bytes(&records);
        let messages = messages(&bytes).expect("the list is in order");
        let rows = rows(&messages);
        let sum = |at: usize| rows.iter().map(|row| row[at]).sum::<i64>();
        let with = |n| messages.iter().filter(|m| m.ranks().count_ones() == n).count() as i64;
        assert_eq!([sum(1), sum(8)], [messages.len() as i64; 2]);
        assert_eq!([sum(2), sum(3), sum(4)], [1, 2, 3].map(with));
        assert_eq!(sum(7), messages.iter().map(|m| half_decibels(m.rssi())).sum::<i64>());
    }

    #[test]
    fn rounded_down() {
        let values = [-50.25, 0.5, 0.499_999_97, -0.0, -1e-45, -200.0, 100.0];
        assert_eq!(values.map(half_decibels), [-101, 1, 0, 0, -1, -400, 200]);
    }
}
