//! `tracker`: the frequency tracker, call by call.

mod given;

use super::{line, spans};
use crate::limits::{self, Checked, MOST_READINGS};
use crate::rust::frequency::{FrameSpan, FrequencyTracker};
use crate::text::{Input, hex64, or_dash};

/// A tracker with the lists that are lent to it, that refuses what 01 refuses.
pub struct Tracker {
    rate: u32,
    step_hz: f64,
    pub inner: FrequencyTracker,
    lent: given::Lent,
}

impl Tracker {
    pub fn new(rate: u32, base_freq: u32, step_hz: f64) -> Result<Self, u8> {
        limits::rate(rate)?;
        limits::step(step_hz)?;
        Ok(Self {
            rate,
            step_hz,
            inner: FrequencyTracker::new(rate, base_freq, step_hz),
            lent: given::Lent::empty(),
        })
    }

    /// Cause 5 of a call that is lent the tunings.
    fn tunings_in_order(&self) -> Checked {
        limits::order(given::tunings_in_order(&self.lent, &self.inner))
    }

    /// Cause 5 of a call that is lent the readings.
    fn readings_in_order(&self) -> Checked {
        limits::order(given::readings_in_order(&self.lent, &self.inner))
    }

    /// Cause 9 of every call.
    fn ranges(&self) -> Checked {
        limits::step(self.step_hz)?;
        limits::number(given::floor_ok(&self.inner))
    }

    /// Cause 9 of a call that is lent the readings.
    fn numbers(&self) -> Checked {
        self.ranges()?;
        limits::number(!given::any_nan(&self.inner))
    }

    pub fn tuned(&mut self, freq: u32) -> Checked {
        limits::rate(self.rate)?;
        self.tunings_in_order()?;
        let due = freq != self.inner.freq() || self.inner.tuning.is_empty();
        limits::room(self.inner.tuning.len() + usize::from(due), self.lent.tuning_places())?;
        self.ranges()?;
        self.inner.tuned(freq);
        self.lent.store_tunings(&self.inner);
        Ok(())
    }

    pub fn samples(&mut self, dbm: &[f32]) -> Checked {
        limits::rate(self.rate)?;
        limits::sample_count(dbm.len(), self.rate)?;
        limits::samples(dbm)?;
        self.tunings_in_order()?;
        self.readings_in_order()?;
        limits::stream(self.inner.n as usize + dbm.len())?;
        self.numbers()?;
        self.inner.samples(dbm);
        self.lent.store_tunings(&self.inner);
        self.lent.store_readings(&self.inner);
        Ok(())
    }

    pub fn cfo(&mut self, raw: &[u16]) -> Checked {
        limits::rate(self.rate)?;
        limits::at_most(raw.len(), MOST_READINGS)?;
        self.tunings_in_order()?;
        self.readings_in_order()?;
        limits::room(self.inner.readings.len() + raw.len(), self.lent.reading_places())?;
        self.numbers()?;
        self.inner.cfo(raw);
        self.lent.store_readings(&self.inner);
        Ok(())
    }

    fn next_tuning(&mut self) -> Result<Option<u32>, u8> {
        limits::rate(self.rate)?;
        self.lent.scratch()?;
        self.tunings_in_order()?;
        self.readings_in_order()?;
        self.numbers()?;
        Ok(self.inner.next_tuning())
    }

    /// The causes of `frame_frequency` and `frame1`, and their spans.
    fn frames<'a>(&self, spans: &'a Result<Vec<FrameSpan>, u8>) -> Result<&'a [FrameSpan], u8> {
        limits::rate(self.rate)?;
        self.lent.scratch()?;
        self.readings_in_order()?;
        self.numbers()?;
        spans.as_deref().map_err(|&n| n)
    }

    fn freq(&self) -> Result<u32, u8> {
        limits::rate(self.rate)?;
        self.tunings_in_order()?;
        self.ranges()?;
        Ok(self.inner.freq())
    }
}

pub fn stream(input: &mut Input, out: &mut String) -> Option<()> {
    let (rate, base_freq, step_hz) = (input.u32()?, input.u32()?, input.f64()?);
    let mut tracker = Tracker::new(rate, base_freq, step_hz);
    while !input.is_empty() {
        let call = match input.u8()? {
            7 => {
                tracker = Ok(given::read(input)?);
                continue;
            }
            number => Call::read(number, input)?,
        };
        let answer = tracker
            .as_mut()
            .map_err(|&mut n| n)
            .and_then(|tracker| call.answer(tracker));
        line(out, answer);
    }
    Some(())
}

enum Call {
    Tuned(u32),
    Samples(Vec<f32>),
    Cfo(Vec<u16>),
    NextTuning,
    FrameFrequency(Result<Vec<FrameSpan>, u8>),
    Frame1(bool, Result<Vec<FrameSpan>, u8>),
    Freq,
    Lists,
}

impl Call {
    fn read(number: u8, input: &mut Input) -> Option<Self> {
        Some(match number {
            0 => Self::Tuned(input.u32()?),
            1 => Self::Samples(input.f32s()?),
            2 => Self::Cfo(input.u16s()?),
            3 => Self::NextTuning,
            4 => Self::FrameFrequency(spans(input, 1)?),
            5 => {
                let (downlink, count) = (input.u8()?, input.u8()?);
                Self::Frame1(downlink != 0, spans(input, count)?)
            }
            6 => Self::Freq,
            8 => Self::Lists,
            call => panic!("tracker has no call {call}"),
        })
    }

    fn answer(&self, tracker: &mut Tracker) -> Result<String, u8> {
        Ok(match self {
            Self::Tuned(freq) => {
                tracker.tuned(*freq)?;
                format!("tuned {} {}", tracker.inner.freq(), tracker.inner.tuning.len())
            }
            Self::Samples(dbm) => {
                tracker.samples(dbm)?;
                samples_line(&tracker.inner)
            }
            Self::Cfo(raw) => {
                tracker.cfo(raw)?;
                cfo_line(&tracker.inner)
            }
            Self::NextTuning => {
                let next = or_dash(tracker.next_tuning()?);
                format!("next {next} {}", u8::from(tracker.inner.retuned))
            }
            Self::FrameFrequency(span) => {
                let answer = tracker.inner.frame_frequency(&tracker.frames(span)?[0]);
                answer.map_or("ff -".to_string(), |f| format!("ff {} {}", hex64(f.hz), f.lo))
            }
            Self::Frame1(downlink, spans) => {
                let answer = tracker.inner.frame1(tracker.frames(spans)?, *downlink);
                format!("frame1 {}", or_dash(answer))
            }
            Self::Freq => format!("since_freq {}", tracker.freq()?),
            Self::Lists => given::line(&tracker.lent, &tracker.inner),
        })
    }
}

fn samples_line(t: &FrequencyTracker) -> String {
    format!(
        "samples {} {} {} {} {} {} {}",
        t.n,
        t.line_start,
        t.readings.len(),
        t.tuning.len(),
        or_dash(t.floor.map(hex64)),
        t.frame_from,
        or_dash(t.last_signal)
    )
}

fn cfo_line(t: &FrequencyTracker) -> String {
    let last = t.readings.last();
    let last = last.map_or(String::new(), |r| format!(" {} {} {}", r.at, r.lo, hex64(r.hz)));
    format!("cfo {}{last}", t.readings.len())
}
