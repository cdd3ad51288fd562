//! `grip`: the message nearest to a grip, and those on air across an instant (request 11), from 02's text alone.

use super::given::{Message, kept, messages};
use super::line;
use super::record::RECORD;
use crate::limits;
use crate::text::Input;

pub fn case(input: &mut Input, out: &mut String) -> Option<()> {
    match input.u8()? {
        0 => nearest_case(input, out),
        1 => on_air_case(input, out),
        _ => None,
    }
}

fn nearest_case(input: &mut Input, out: &mut String) -> Option<()> {
    let (grip, distance) = (input.f64()?, input.f64()?);
    let answer = nearest(grip, distance, input.bytes()?);
    let text = |found: Option<usize>| found.map_or_else(none, |number| format!("N {number}"));
    line(out, answer.map(text));
    Some(())
}

fn on_air_case(input: &mut Input, out: &mut String) -> Option<()> {
    let instant = input.f64()?;
    let (places, fill) = (input.u16()?, input.u32()?);
    let mut list = vec![fill; places.into()];
    let answer = on_air(instant, input.bytes()?, &mut list);
    let count = answer.unwrap_or(0);
    line(out, answer.map(|count| text(&list[..count])));
    line(out, Ok(kept(&list[count..], fill)));
    Some(())
}

fn none() -> String {
    "none".to_string()
}

fn text(numbers: &[u32]) -> String {
    if numbers.is_empty() {
        return none();
    }
    let numbers: Vec<String> = numbers.iter().map(u32::to_string).collect();
    format!("A {}", numbers.join(" "))
}

/// The number of the message at the least distance, then with the least time, then first in the list; or the refusal.
fn nearest(grip: f64, distance: f64, records: &[u8]) -> Result<Option<usize>, u8> {
    let messages = messages(records)?;
    limits::seconds(grip.is_finite())?;
    limits::seconds(distance.is_finite() && distance >= 0.0)?;
    let finite = messages.iter().filter(|m| m.time().is_finite());
    let away = finite.map(|m| ((grip - m.time()).abs(), m.time(), m.number));
    let within = away.filter(|&(seconds, ..)| seconds <= distance);
    let first = within.min_by(|a, b| a.partial_cmp(b).expect("they are numbers"));
    Ok(first.map(|(.., number)| number))
}

/// How many numbers the list has, or the refusal; it is written to only where nothing is refused.
fn on_air(instant: f64, records: &[u8], list: &mut [u32]) -> Result<usize, u8> {
    limits::lent(list.len(), records.len() / RECORD)?;
    let messages = messages(records)?;
    limits::seconds(instant.is_finite())?;
    let across = messages.iter().filter(|m| is_on_air(m, instant));
    let numbers: Vec<u32> = across.map(|m| m.number as u32).collect();
    list[..numbers.len()].copy_from_slice(&numbers);
    Ok(numbers.len())
}

/// Some span begins at or before the instant and ends after it.
fn is_on_air(message: &Message, instant: f64) -> bool {
    message.spans().any(|(begin, end)| begin <= instant && end > instant)
}
