//! `events`: the receiver, call by call, with its state after each.

mod given;

use super::shifts::Shifts;
use super::{line, record};
use crate::limits;
use crate::rust::receiver::{ReceiverEvent, SigfoxReceiver};
use crate::text::{Input, hex_bytes, hex64};

/// A receiver that refuses what 01 and request 03 refuse.
pub struct Receiver {
    rate: u32,
    inner: SigfoxReceiver,
    /// Whether the samples and the messages of a state that was handed in have what 01 allows; those of one that grew have.
    fits: bool,
}

impl Receiver {
    pub fn new(rate: u32) -> Self {
        // the buffer of a rate that every call refuses stays small
        let inner = SigfoxReceiver::new(if limits::rate(rate).is_ok() { rate } else { 0 });
        Self {
            rate,
            inner,
            fits: true,
        }
    }

    pub fn push(&mut self, dbm: &[f32], shifts: &Shifts) -> Result<Vec<ReceiverEvent>, u8> {
        limits::rate(self.rate)?;
        limits::sample_count(dbm.len(), self.rate)?;
        limits::samples(dbm)?;
        self.state_takes(dbm.len())?;
        shifts.check()?;
        Ok(self.inner.push(dbm))
    }

    pub fn push_raw(&mut self, raw: &[u8], shifts: &Shifts) -> Result<Vec<ReceiverEvent>, u8> {
        limits::rate(self.rate)?;
        limits::sample_count(raw.len(), self.rate)?;
        self.state_takes(raw.len())?;
        shifts.check()?;
        Ok(self.inner.push_raw(raw))
    }

    pub fn flush(&mut self, shifts: &Shifts) -> Result<Vec<ReceiverEvent>, u8> {
        limits::rate(self.rate)?;
        limits::order(self.in_order())?;
        limits::number(!given::any_nan(&self.inner.pending))?;
        shifts.check()?;
        Ok(self.inner.flush())
    }

    /// Causes 5 to 9 of a push of n samples.
    fn state_takes(&self, n: usize) -> limits::Checked {
        limits::order(self.in_order())?;
        limits::stream(self.inner.base + self.inner.len + n)?;
        limits::number(!given::any_nan(&self.inner.pending))
    }

    fn in_order(&self) -> bool {
        self.fits && given::in_order(self.rate, &self.inner)
    }

    fn state(&self) -> String {
        let r = &self.inner;
        let mut text = format!("S {} {} {} {}", r.len, r.base, r.since_scan, r.seen.len());
        for start in &r.seen {
            text += &format!(" {start}");
        }
        text += &format!(" {}", r.pending.len());
        for p in &r.pending {
            let m = &p.message;
            text += &format!(" {:08x}:{}:{}", m.device_id.0, m.counter, hex64(p.last));
        }
        text
    }
}

/// No call is given shifts.
pub fn stream(input: &mut Input, out: &mut String) -> Option<()> {
    calls(input, out, |_| Some(Shifts::default()))
}

/// What a call takes besides its shifts.
enum Arguments<'a> {
    Push(Vec<f32>),
    PushRaw(&'a [u8]),
    Flush,
}

/// A whole run; `shifts` reads what stands behind the arguments of each call.
pub fn calls(input: &mut Input, out: &mut String, shifts: fn(&mut Input) -> Option<Shifts>) -> Option<()> {
    let mut receiver = Receiver::new(input.u32()?);
    let mut index = 0;
    while !input.is_empty() {
        let arguments = match input.u8()? {
            3 => {
                given::take_over(input, &mut receiver)?;
                continue;
            }
            0 => Arguments::Push(input.f32s()?),
            1 => Arguments::PushRaw(input.bytes()?),
            2 => Arguments::Flush,
            call => panic!("events has no call {call}"),
        };
        let shifts = shifts(input)?;
        let (name, events) = match arguments {
            Arguments::Push(dbm) => ("push", receiver.push(&dbm, &shifts)),
            Arguments::PushRaw(raw) => ("push_raw", receiver.push_raw(raw, &shifts)),
            Arguments::Flush => ("flush", receiver.flush(&shifts)),
        };
        let records = events.map(|events| records(&events, &shifts));
        line(out, records.map(|records| answer(index, name, &records, &receiver)));
        index += 1;
    }
    Some(())
}

/// The events' records, messages with their mark.
fn records(events: &[ReceiverEvent], shifts: &Shifts) -> Vec<[u8; record::RECORD]> {
    let record = |event: &ReceiverEvent| match event {
        ReceiverEvent::Frame(d) => record::received(d),
        ReceiverEvent::Message(m) => record::message(m, shifts.mark(m.time)),
    };
    events.iter().map(record).collect()
}

fn answer(index: usize, name: &str, records: &[[u8; record::RECORD]], receiver: &Receiver) -> String {
    let mut text = format!("C {index} {name} {}\n", records.len());
    for record in records {
        text += &hex_bytes(record);
        text += "\n";
    }
    text + &receiver.state()
}
