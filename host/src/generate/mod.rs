//! Inputs for both sides, of every format: directed edges first, then as many random ones as wanted.

mod band;
mod bits;
mod burst;
mod burstbits;
mod bursts;
mod bytes;
mod capture;
mod charges;
mod depths;
mod dips;
mod events;
pub mod explain;
mod fleet;
pub(crate) mod frame;
pub mod given;
mod grip;
mod listen;
pub mod load;
mod misc;
mod put;
pub(crate) mod rng;
mod shifts;
pub mod signal;
mod tracker;
mod uplink;
mod writer;

use put::Put;
use rng::Rng;

/// One input, and what it shows.
pub struct Case {
    pub label: String,
    pub bytes: Vec<u8>,
    /// It ends in the middle, so nothing can follow it in a run
    pub short: bool,
}

/// Programs, each with its run
type Runs = fn() -> Vec<(&'static str, Case)>;

pub struct Format {
    pub name: &'static str,
    /// A case is a whole run, since it starts with a header
    pub stream: bool,
    /// How many rows there are, where cases have one (`Format::row`)
    pub rows: u8,
    pub directed: fn() -> Vec<Case>,
    pub random: fn(&mut Rng) -> Case,
    /// The programs and the runs that the gate replays, where these aren't a choice of the cases
    pub runs: Option<Runs>,
}

pub const FORMATS: &[Format] = &[
    Format {
        name: "bits",
        stream: false,
        rows: 0,
        directed: bits::directed,
        random: bits::random,
        runs: None,
    },
    Format {
        name: "events",
        stream: true,
        rows: 0,
        directed: events::directed,
        random: events::random,
        runs: Some(|| vec![("replay_events", events::sample())]),
    },
    Format {
        name: "fleet",
        stream: false,
        rows: 0,
        directed: fleet::directed,
        random: fleet::random,
        runs: Some(|| vec![("replay_fleet", fleet::sample())]),
    },
    Format {
        name: "bursts",
        stream: false,
        rows: 0,
        directed: bursts::directed,
        random: bursts::random,
        runs: None,
    },
    Format {
        name: "depths",
        stream: false,
        rows: depths::ROWS,
        directed: depths::directed,
        random: depths::random,
        runs: Some(|| vec![("replay_depths", depths::sample())]),
    },
    Format {
        name: "dips",
        stream: false,
        rows: 0,
        directed: dips::directed,
        random: dips::random,
        runs: None,
    },
    Format {
        name: "burstbits",
        stream: false,
        rows: 0,
        directed: burstbits::directed,
        random: burstbits::random,
        runs: None,
    },
    Format {
        name: "bytes",
        stream: false,
        rows: 0,
        directed: bytes::directed,
        random: bytes::random,
        runs: Some(|| vec![("replay_bytes", bytes::sample())]),
    },
    Format {
        name: "burst",
        stream: false,
        rows: 0,
        directed: burst::directed,
        random: burst::random,
        runs: None,
    },
    Format {
        name: "capture",
        stream: false,
        rows: 0,
        directed: capture::directed,
        random: capture::random,
        runs: None,
    },
    Format {
        name: "charges",
        stream: false,
        rows: 0,
        directed: charges::directed,
        random: charges::random,
        runs: Some(|| vec![("replay_charges", charges::sample())]),
    },
    Format {
        name: "tracker",
        stream: true,
        rows: 0,
        directed: tracker::directed,
        random: tracker::random,
        runs: Some(|| vec![("replay_tracker", tracker::sample())]),
    },
    Format {
        name: "grip",
        stream: false,
        rows: grip::ROWS,
        directed: grip::directed,
        random: grip::random,
        runs: Some(|| vec![("replay_grip", grip::sample())]),
    },
    Format {
        name: "listen",
        stream: true,
        rows: listen::ROWS,
        directed: listen::directed,
        random: listen::random,
        runs: Some(listen::runs),
    },
    Format {
        name: "writer",
        stream: false,
        rows: 0,
        directed: writer::directed,
        random: writer::random,
        runs: Some(|| vec![("replay_writer", writer::sample())]),
    },
    Format {
        name: "shifts",
        stream: true,
        rows: 0,
        directed: shifts::directed,
        random: shifts::random,
        runs: Some(|| vec![("replay_shifts", shifts::sample())]),
    },
    Format {
        name: "uplink",
        stream: false,
        rows: 0,
        directed: uplink::directed,
        random: uplink::random,
        runs: Some(|| vec![("uplink", uplink::sample())]),
    },
    Format {
        name: "misc",
        stream: false,
        rows: misc::ROWS,
        directed: misc::directed,
        random: misc::random,
        runs: None,
    },
];

pub fn format(name: &str) -> Option<&'static Format> {
    FORMATS.iter().find(|f| f.name == name)
}

impl Format {
    /// The directed cases, then `count` random ones.
    pub fn cases(&self, seed: u64, count: usize) -> Vec<Case> {
        self.choose(seed, count, None).collect()
    }

    /// A case's row: its first byte; of `listen` whether a record is without a frequency.
    fn row(&self, case: &Case) -> u8 {
        if self.name == "listen" {
            listen::row(case)
        } else {
            case.bytes[0]
        }
    }

    /// The same of one row alone, where there is one to choose.
    pub fn choose(&self, seed: u64, count: usize, row: Option<u8>) -> impl Iterator<Item = Case> {
        let wanted = move |case: &Case| row.is_none_or(|row| self.row(case) == row);
        let random = self.random;
        let name = self.name;
        let random = (0..).map(move |index| random(&mut Rng::of_case(name, seed, index)));
        (self.directed)()
            .into_iter()
            .filter(wanted)
            .chain(random.filter(wanted).take(count))
    }
}

fn case(label: impl Into<String>, put: Put) -> Case {
    Case {
        label: label.into(),
        bytes: put.0,
        short: false,
    }
}

/// The case cut somewhere in its middle, after its header.
fn cut(rng: &mut Rng, header: usize, case: Case) -> Case {
    let length = rng.range(header + 1, case.bytes.len() - 1);
    Case {
        label: format!("{}, cut", case.label),
        bytes: case.bytes[..length].to_vec(),
        short: true,
    }
}

#[cfg(test)]
mod tests {
    use super::*;
    use crate::rust::demod::burst_bits;
    use crate::rust::frame::decode_uplink_bits;

    /// The generator would show little if its frames didn't get through.
    #[test]
    fn most_frames_decode() {
        for rate in signal::RATES {
            let mut rng = Rng::new(rate.into());
            let mut right = 0;
            for _ in 0..200 {
                let bits = burst_bits(&dips::frame(&mut rng, rate), rate);
                let frame = bits.and_then(|b| decode_uplink_bits(&b.bits));
                right += usize::from(frame.is_some_and(|f| f.crc_ok));
            }
            assert!(right > 90, "{rate}: {right} of 200");
        }
    }
}
