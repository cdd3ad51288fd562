//! The Rust beside the port: its answers, inputs for both sides, the comparison, the benchmark.
//! All of it needs the Rust's text but the C function's wrapper.

#[cfg(has_rust)]
mod bench;
#[cfg(has_rust)]
pub mod commands;
#[cfg(has_rust)]
mod compare;
#[cfg(has_record)]
pub mod decode;
#[cfg(has_rust)]
pub mod depth;
#[cfg(has_rust)]
pub mod draw;
#[cfg(has_rust)]
pub mod generate;
#[cfg(has_rust)]
pub mod limits;
#[cfg(has_rust)]
pub mod listener;
#[cfg(has_rust)]
pub mod oracle;
#[cfg(has_rust)]
pub mod rust;
#[cfg(has_rust)]
mod sample;
#[cfg(has_rust)]
pub mod text;
#[cfg(has_rust)]
pub mod trig;
#[cfg(has_rust)]
pub mod vectors;
