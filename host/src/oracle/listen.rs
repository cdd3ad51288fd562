//! `listen`: 01's program, the tracker and the receiver on one stream of 16-byte records, with 02's request 04.

use super::events::Receiver;
use super::shifts::Shifts;
use super::tracker::Tracker;
use crate::listener::{RATE, RECORD, STEP_HZ, cfo, frame1, freq, levels};
use crate::rust::receiver::{ReceiverEvent, SigfoxMessage};
use crate::text::{hex_bytes, or_dash};

struct Listener {
    receiver: Receiver,
    /// None until a record has a frequency
    tracker: Option<Tracker>,
    /// Samples before the tracker's first
    passed: usize,
    samples: usize,
    frames: usize,
    messages: usize,
    out: String,
}

pub fn lines(input: &[u8]) -> String {
    let mut l = Listener {
        receiver: Receiver::new(RATE),
        tracker: None,
        passed: 0,
        samples: 0,
        frames: 0,
        messages: 0,
        out: String::new(),
    };
    let (records, rest) = input.as_chunks::<RECORD>();
    if let Err(n) = l.run(records) {
        return l.out + &format!("R {n}\n");
    }
    let end = format!("E {} {} {} {}\n", l.samples, l.frames, l.messages, rest.len());
    l.out + &end
}

impl Listener {
    fn run(&mut self, records: &[[u8; RECORD]]) -> Result<(), u8> {
        for r in records {
            self.record(r)?;
        }
        let events = self.receiver.flush(&Shifts::default())?;
        self.emit(&events);
        Ok(())
    }

    fn record(&mut self, r: &[u8; RECORD]) -> Result<(), u8> {
        if let Some(hz) = self.track(r)? {
            self.out += &format!("T {hz}\n");
        }
        let events = self.receiver.push_raw(&r[..8], &Shifts::default())?;
        self.samples += 8;
        self.emit(&events);
        Ok(())
    }

    /// What the tracker asks for. It begins with the first record whose frequency isn't 0; a later 0 is no tuning.
    fn track(&mut self, r: &[u8; RECORD]) -> Result<Option<u32>, u8> {
        let hz = freq(r);
        if let (None, Some(base)) = (&self.tracker, hz) {
            self.tracker = Some(Tracker::new(RATE, base, STEP_HZ)?);
            self.passed = self.samples;
        }
        let Some(tracker) = &mut self.tracker else {
            return Ok(None);
        };
        if let Some(hz) = hz {
            tracker.tuned(hz)?;
        }
        tracker.samples(&levels(r))?;
        tracker.cfo(&[cfo(r)])?;
        Ok(tracker.inner.next_tuning())
    }

    fn emit(&mut self, events: &[ReceiverEvent]) {
        for event in events {
            match event {
                ReceiverEvent::Frame(_) => self.frames += 1,
                ReceiverEvent::Message(m) => {
                    self.messages += 1;
                    let tracker = self.tracker.as_ref();
                    let hz = tracker.and_then(|t| frame1(&t.inner, self.passed, m));
                    self.out += &message(m, hz);
                }
            }
        }
    }
}

/// A message's line, with the answer of `frame1`.
pub fn message(m: &SigfoxMessage, hz: Option<u32>) -> String {
    let mask: u32 = m.ranks.iter().map(|&rank| 1 << rank).sum();
    let payload = Some(hex_bytes(&m.payload)).filter(|p| !p.is_empty());
    format!(
        "M {:08x} {} {mask} {} {}\n",
        m.device_id.0,
        m.counter,
        or_dash(payload),
        or_dash(hz)
    )
}
