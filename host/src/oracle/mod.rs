//! The Rust's answers in docs/REPLAY.md's lines. Refusals are 01's, added around the Rust's calls.

pub mod bits;
mod burst;
mod burstbits;
mod bursts;
mod bytes;
mod capture;
mod charges;
mod depths;
mod dips;
mod events;
mod fleet;
pub mod given;
mod grip;
pub mod listen;
mod misc;
pub mod record;
mod shifts;
pub mod tracker;
mod uplink;
mod writer;

use crate::limits;
use crate::rust::frequency::FrameSpan;
use crate::text::Input;

/// One case of a format, or the whole input where it starts with a header; none where the input ends too early.
type Replay = fn(&mut Input, &mut String) -> Option<()>;

fn replay(name: &str) -> Option<Replay> {
    Some(match name {
        "bits" => bits::case,
        "events" => events::stream,
        "fleet" => fleet::case,
        "bursts" => bursts::case,
        "dips" => dips::case,
        "burstbits" => burstbits::case,
        "bytes" => bytes::case,
        "burst" => burst::case,
        "capture" => capture::case,
        "charges" => charges::case,
        "depths" => depths::case,
        "tracker" => tracker::stream,
        "grip" => grip::case,
        "misc" => misc::case,
        "shifts" => shifts::stream,
        "writer" => writer::case,
        _ => return None,
    })
}

/// All lines for an input of the format NAME; none where there is no such format.
pub fn lines(name: &str, input: &[u8]) -> Option<String> {
    match name {
        "listen" => return Some(listen::lines(input)),
        "uplink" => return Some(uplink::lines(input)),
        _ => {}
    }
    let replay = replay(name)?;
    let mut input = Input::new(input);
    let mut out = String::new();
    while !input.is_empty() {
        if replay(&mut input, &mut out).is_none() {
            out.push_str("short\n");
            break;
        }
    }
    Some(out)
}

/// A call's answer as its lines: those of an accepted call, or `R n`.
fn line(out: &mut String, answer: Result<String, u8>) {
    match answer {
        Ok(text) => out.push_str(&text),
        Err(n) => out.push_str(&format!("R {n}")),
    }
    out.push('\n');
}

/// Spans handed to a call, and the refusal of one that is not in 01's ranges.
fn spans(input: &mut Input, count: u8) -> Option<Result<Vec<FrameSpan>, u8>> {
    let mut spans = vec![];
    let mut checked = Ok(());
    for _ in 0..count {
        let (rank, time, end) = (input.u8()?, input.f64()?, input.f64()?);
        checked = checked
            .and(limits::rank(rank))
            .and(limits::time(time))
            .and(limits::time(end));
        let rank = rank.into();
        spans.push(FrameSpan { rank, time, end });
    }
    Some(checked.map(|()| spans))
}
