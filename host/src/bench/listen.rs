//! The row of 01's program: the port's `listen` beside the Rust's tracker and receiver.

use super::{Row, programs};
use crate::generate::load::records;
use crate::listener::{Listener, RECORD};

const SECONDS: usize = 600;

pub fn row() -> Result<Row, String> {
    let stream = records(SECONDS);
    let what = format!("{SECONDS} s of records at 1,000/s");
    programs::row("listen", what, "listen", &stream.clone(), move || lines(&stream))
}

fn lines(stream: &[u8]) -> String {
    let (records, rest) = stream.as_chunks::<RECORD>();
    let mut listener = Listener::default();
    let heard: String = records.iter().map(|record| listener.hear(record)).collect();
    heard + &listener.end(rest.len())
}
