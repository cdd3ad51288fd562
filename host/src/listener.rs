//! What `listen` does (01, and 02's request 04), by the Rust alone: its tracker and its receiver on records, without the refusals that the oracle puts around their calls.

use crate::oracle::listen::message;
use crate::rust::frequency::{FrameSpan, FrequencyTracker};
use crate::rust::receiver::{ReceiverEvent, SigfoxMessage, SigfoxReceiver};

pub const RECORD: usize = 16;
pub const RATE: u32 = 1000;
pub const STEP_HZ: f64 = 122.070_312_5;

pub struct Listener {
    /// None until a record has a frequency
    tracker: Option<FrequencyTracker>,
    /// Samples before the tracker's first
    passed: usize,
    receiver: SigfoxReceiver,
    samples: usize,
    frames: usize,
    messages: usize,
}

/// The frequency that the receiver is tuned to; none where it isn't known, which is written as 0 (request 04).
pub fn freq(record: &[u8; RECORD]) -> Option<u32> {
    let hz = u32::from_le_bytes([record[10], record[11], record[12], record[13]]);
    Some(hz).filter(|&hz| hz != 0)
}

/// The register's value.
pub fn cfo(record: &[u8; RECORD]) -> u16 {
    u16::from_le_bytes([record[8], record[9]])
}

/// The samples in dBm.
pub fn levels(record: &[u8; RECORD]) -> [f32; 8] {
    std::array::from_fn(|i| -f32::from(record[i]) / 2.0)
}

/// The answer of `frame1` for a message. The tracker's samples are counted from its first record, so the spans are earlier
/// by the samples passed over before it (request 04).
pub fn frame1(tracker: &FrequencyTracker, passed: usize, message: &SigfoxMessage) -> Option<u32> {
    let earlier = passed as f64 / f64::from(RATE);
    let span = |f: &FrameSpan| FrameSpan {
        rank: f.rank,
        time: f.time - earlier,
        end: f.end - earlier,
    };
    let spans: Vec<FrameSpan> = message.frames.iter().map(span).collect();
    tracker.frame1(&spans, message.downlink)
}

impl Default for Listener {
    fn default() -> Self {
        Self {
            tracker: None,
            passed: 0,
            receiver: SigfoxReceiver::new(RATE),
            samples: 0,
            frames: 0,
            messages: 0,
        }
    }
}

impl Listener {
    /// The lines of one more record.
    pub fn hear(&mut self, record: &[u8; RECORD]) -> String {
        let tune = self.track(record);
        let tune = tune.map_or(String::new(), |hz| format!("T {hz}\n"));
        self.samples += 8;
        let events = self.receiver.push_raw(&record[..8]);
        tune + &self.lines(&events)
    }

    /// What the tracker asks for. It begins with the first record that has a frequency, which is its base.
    fn track(&mut self, record: &[u8; RECORD]) -> Option<u32> {
        let hz = freq(record);
        if let (None, Some(base)) = (&self.tracker, hz) {
            self.tracker = Some(FrequencyTracker::new(RATE, base, STEP_HZ));
            self.passed = self.samples;
        }
        let tracker = self.tracker.as_mut()?;
        if let Some(hz) = hz {
            tracker.tuned(hz);
        }
        tracker.samples(&levels(record));
        tracker.cfo(&[cfo(record)]);
        tracker.next_tuning()
    }

    /// The lines at the end.
    pub fn end(mut self, leftover: usize) -> String {
        let events = self.receiver.flush();
        let lines = self.lines(&events);
        lines + &format!("E {} {} {} {leftover}\n", self.samples, self.frames, self.messages)
    }

    fn lines(&mut self, events: &[ReceiverEvent]) -> String {
        let mut lines = String::new();
        for event in events {
            match event {
                ReceiverEvent::Frame(_) => self.frames += 1,
                ReceiverEvent::Message(m) => {
                    self.messages += 1;
                    let hz = self.tracker.as_ref().and_then(|t| frame1(t, self.passed, m));
                    lines += &message(m, hz);
                }
            }
        }
        lines
    }
}
