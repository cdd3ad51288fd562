//! A state that is handed in, and 01's order of a state.

use super::Receiver;
use crate::limits;
use crate::oracle::record;
use crate::rust::receiver::{Pending, SigfoxReceiver};
use crate::text::Input;

const MOST_STARTS: usize = 96;
const MOST_WAITING: usize = 40;

/// 01: "In order: held at most 12 x rate, .."; a message's own part of it is `fits`. 02: "none may be below minus the base": such a start is a number below 0,
/// which as two's complement lies above every end.
pub fn in_order(rate: u32, r: &SigfoxReceiver) -> bool {
    let (r_rate, base) = (rate as usize, r.base);
    let end = base.saturating_add(r.len);
    r.len <= r.buf.len()
        && limits::samples(&r.buf[..r.len]).is_ok()
        && end <= limits::LONGEST_STREAM
        && 2 * r.since_scan < r_rate
        && r.seen.len() <= MOST_STARTS
        && r.seen.iter().all(|&s| s < end && s.saturating_add(7 * r_rate) >= base)
        && pairs(&r.seen).all(|(a, b)| 10 * a.abs_diff(*b) as u128 >= 3 * r_rate as u128)
        && r.pending.len() <= MOST_WAITING
        && pairs(&r.pending).all(|(a, b)| key(a) != key(b))
}

/// "any NaN" among the numbers that a state's messages use
pub fn any_nan(waiting: &[Pending]) -> bool {
    waiting.iter().any(|p| {
        let m = &p.message;
        p.last.is_nan()
            || m.time.is_nan()
            || m.rssi.is_nan()
            || m.first_frame_end.is_some_and(f64::is_nan)
            || m.frames.iter().any(|f| f.time.is_nan() || f.end.is_nan())
    })
}

fn key(p: &Pending) -> (u32, u16) {
    (p.message.device_id.0, p.message.counter)
}

/// "1 to 3 spans of different ranks 0 to 2, payload at most 12 and auth at most 5 bytes"
fn fits(r: &[u8; record::RECORD]) -> bool {
    let ranks: Vec<u8> = r[44..47].iter().copied().filter(|&rank| rank != 255).collect();
    let different = pairs(&ranks).all(|(a, b)| a != b);
    !ranks.is_empty() && different && ranks.iter().all(|&rank| rank <= 2) && r[3] <= 12 && r[4] <= 5
}

fn pairs<T>(items: &[T]) -> impl Iterator<Item = (&T, &T)> {
    items
        .iter()
        .enumerate()
        .flat_map(|(i, a)| items[i + 1..].iter().map(move |b| (a, b)))
}

/// The receiver goes on from the state of the input; none where the input ends too early.
pub fn take_over(input: &mut Input, receiver: &mut Receiver) -> Option<()> {
    let base = input.u64()? as usize;
    let since_scan = input.u32()? as usize;
    let held = input.f32s()?;
    let mut inner = SigfoxReceiver::new(if limits::rate(receiver.rate).is_ok() {
        receiver.rate
    } else {
        0
    });
    inner.base = base;
    inner.since_scan = since_scan;
    inner.seen = (0..input.u8()?)
        .map(|_| input.u64().map(|start| start as usize))
        .collect::<Option<_>>()?;
    receiver.fits = held.len() <= inner.buf.len();
    if receiver.fits {
        inner.buf[..held.len()].copy_from_slice(&held);
        inner.len = held.len();
    }
    for _ in 0..input.u8()? {
        let bytes: [u8; record::RECORD] = input.array()?;
        receiver.fits &= fits(&bytes);
        inner.pending.push(Pending {
            message: record::read_message(&bytes),
            last: input.f64()?,
        });
    }
    receiver.inner = inner;
    Some(())
}
