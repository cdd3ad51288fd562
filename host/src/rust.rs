//! The Rust that the port is compared with: the four modules as build.rs makes them.

include!(concat!(env!("OUT_DIR"), "/rust.rs"));

/// 01's rule: a bit index that is not a number or beyond 2^31 gives no bits.
fn bit_index(x: f64) -> Option<i64> {
    (x.abs() <= 2_147_483_648.0).then_some(x as i64)
}

/// 02, request 07: the default's shortest burst is 1,000 ms, where the Rust has 300.
pub fn default_options() -> demod::BurstOptions {
    demod::BurstOptions {
        min_ms: 1000.0,
        ..Default::default()
    }
}
