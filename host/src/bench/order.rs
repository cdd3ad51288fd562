//! Order statistics: the crate `bench`'s functions beside the Rust's own.

use super::{Row, grouped};
use crate::generate::load;
use crate::rust::demod::noise_floor;
use crate::rust::frequency::median;

unsafe extern "C" {
    fn bench_select32(xs: *const f32, xs_len: usize, k: usize) -> f32;
    fn bench_select64(xs: *const f64, xs_len: usize, k: usize) -> f64;
}

/// The k-th smallest; 0 where there is none or a NaN is there.
fn select32(xs: &[f32], k: usize) -> f32 {
    // The function reads the slice within its length.
    unsafe { bench_select32(xs.as_ptr(), xs.len(), k) }
}

fn select64(xs: &[f64], k: usize) -> f64 {
    // The function reads the slice within its length.
    unsafe { bench_select64(xs.as_ptr(), xs.len(), k) }
}

/// One list, so many times.
const TIMES: usize = 100;

pub fn rows() -> Vec<Row> {
    let half_db = [1000, 4000].map(|rate| floor_row("half dB", load::samples(rate)));
    let fine = [1000, 4000].map(|rate| floor_row("any", load::fine_samples(rate)));
    let medians = [25, 250, 8000].map(|n| median_row("steps", load::readings(n)));
    let fine_median = median_row("any", load::fine_readings(8000));
    half_db
        .into_iter()
        .chain(fine)
        .chain(medians)
        .chain([fine_median])
        .collect()
}

fn floor_row(kind: &str, dbm: Vec<f32>) -> Row {
    let k = dbm.len() / 5;
    assert_eq!(select32(&dbm, k), noise_floor(&dbm));
    let label = format!("`noise_floor` of {} f32, {kind}", grouped(dbm.len()));
    Row::new(
        "order",
        TIMES,
        label,
        dbm,
        |dbm| noise_floor(dbm),
        move |dbm| select32(dbm, k),
    )
}

fn median_row(kind: &str, hz: Vec<f64>) -> Row {
    let k = hz.len() / 2;
    assert_eq!(select64(&hz, k), median(&hz));
    let label = format!("`median` of {} f64, {kind}", grouped(hz.len()));
    Row::new("order", TIMES, label, hz, |hz| median(hz), move |hz| select64(hz, k))
}
