//! Rows of the tracker over `listen`'s records: the Rust here, the port as the program `bench_tracker`.

use super::{Row, programs};
use crate::generate::load::records;
use crate::listener::{RATE, RECORD, STEP_HZ, cfo, freq, levels};
use crate::rust::frequency::FrequencyTracker;

const SECONDS: usize = 600;

/// `samples` and `cfo` for each record, and all calls that `listen` makes; by the public calls, and by those of a tracker that is
/// known to be in order.
pub fn rows() -> Result<Vec<Row>, String> {
    let stream = records(SECONDS);
    let calls = [
        (false, false, "`samples`, `cfo`"),
        (true, false, "all calls of `listen`"),
        (false, true, "`samples`, `cfo`, known to be in order"),
        (true, true, "all calls of `listen`, known to be in order"),
    ];
    calls
        .map(|(all, known, calls)| row(all, known, calls, stream.clone()))
        .into_iter()
        .collect()
}

fn row(all: bool, known: bool, calls: &str, stream: Vec<u8>) -> Result<Row, String> {
    let mut input = vec![u8::from(all), u8::from(known)];
    input.extend(&stream);
    let what = format!("{SECONDS} s of records at 1,000/s, {calls}");
    programs::row("frequency.rs", what, "bench_tracker", &input, move || {
        lines(&stream, all)
    })
}

/// What the tracker asks for, and how much it holds at the end.
fn lines(stream: &[u8], all: bool) -> String {
    let (records, _) = stream.as_chunks::<RECORD>();
    let base = freq(&records[0]).expect("every record has a frequency");
    let mut tracker = FrequencyTracker::new(RATE, base, STEP_HZ);
    let mut out = String::new();
    for r in records {
        if all && let Some(hz) = freq(r) {
            tracker.tuned(hz);
        }
        tracker.samples(&levels(r));
        tracker.cfo(&[cfo(r)]);
        if all && let Some(hz) = tracker.next_tuning() {
            out += &format!("T {hz}\n");
        }
    }
    let held = (tracker.readings.len(), tracker.tuning.len());
    out + &format!("E {} {} {}\n", tracker.n, held.0, held.1)
}
