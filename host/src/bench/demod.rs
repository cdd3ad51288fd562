//! The calls of demod.rs, by the functions of the crate `bench`, beside the Rust's own.

use super::{Row, grouped};
use crate::generate::load;
use crate::limits::SCRATCH64;
use crate::rust::default_options;
use crate::rust::demod::{BIT_RATE, burst_bits, decode_capture, find_bursts, find_dips, noise_floor};

const BUFFER_S: usize = 12;
const BITS: usize = 1024;
const EVENTS: usize = 30_720;

unsafe extern "C" {
    fn bench_noise_floor(dbm: *const f32, dbm_len: usize, scratch: *mut f32, scratch_len: usize) -> f32;
    fn bench_next_burst(dbm: *const f32, dbm_len: usize, rate: u32, floor: f32, from: usize) -> usize;
    fn bench_find_dips(
        seg: *const f32,
        seg_len: usize,
        rate: u32,
        level: f64,
        dips: *mut f64,
        dips_len: usize,
    ) -> usize;
    fn bench_burst_bits(
        seg: *const f32,
        seg_len: usize,
        rate: u32,
        bits: *mut u8,
        bits_len: usize,
        scratch32: *mut f32,
        scratch32_len: usize,
        scratch64: *mut f64,
        scratch64_len: usize,
    ) -> usize;
    fn bench_capture(
        dbm: *const f32,
        dbm_len: usize,
        rate: u32,
        t0: f64,
        events: *mut u8,
        events_len: usize,
        scratch32: *mut f32,
        scratch32_len: usize,
        scratch64: *mut f64,
        scratch64_len: usize,
    ) -> usize;
}

/// The bursts over the noise floor, one by one, as a client asks for them: how many there are.
fn bursts(dbm: &[f32], rate: u32) -> usize {
    let mut scratch = vec![0.0; dbm.len()];
    // The functions read and write the slices within their lengths, here and below.
    let floor = unsafe { bench_noise_floor(dbm.as_ptr(), dbm.len(), scratch.as_mut_ptr(), scratch.len()) };
    let (mut count, mut from) = (0, 0);
    loop {
        from = unsafe { bench_next_burst(dbm.as_ptr(), dbm.len(), rate, floor, from) };
        if from == 0 {
            return count;
        }
        count += 1;
    }
}

fn dips(seg: &[f32], rate: u32, level: f64, places: &mut [f64]) -> usize {
    let (seg, seg_len) = (seg.as_ptr(), seg.len());
    unsafe { bench_find_dips(seg, seg_len, rate, level, places.as_mut_ptr(), places.len()) }
}

fn bits(seg: &[f32], rate: u32, bits: &mut [u8], scratch32: &mut [f32], scratch64: &mut [f64]) -> usize {
    unsafe {
        bench_burst_bits(
            seg.as_ptr(),
            seg.len(),
            rate,
            bits.as_mut_ptr(),
            bits.len(),
            scratch32.as_mut_ptr(),
            scratch32.len(),
            scratch64.as_mut_ptr(),
            scratch64.len(),
        )
    }
}

fn capture(dbm: &[f32], rate: u32, events: &mut [u8], scratch32: &mut [f32], scratch64: &mut [f64]) -> usize {
    unsafe {
        bench_capture(
            dbm.as_ptr(),
            dbm.len(),
            rate,
            0.0,
            events.as_mut_ptr(),
            events.len(),
            scratch32.as_mut_ptr(),
            scratch32.len(),
            scratch64.as_mut_ptr(),
            scratch64.len(),
        )
    }
}

pub fn rows() -> Vec<Row> {
    let rates = [1000, 4000];
    let bursts = rates.map(bursts_row);
    let dips = rates.map(dips_row);
    let bits = rates.map(bits_row);
    let captures = rates.map(capture_row);
    bursts.into_iter().chain(dips).chain(bits).chain(captures).collect()
}

const TIMES: usize = 100;

fn at(rate: u32) -> String {
    format!("at {}/s", grouped(rate as usize))
}

fn bursts_row(rate: u32) -> Row {
    let dbm = load::samples(rate);
    let rust = move |dbm: &Vec<f32>| find_bursts(dbm, rate, &default_options(), noise_floor(dbm)).len();
    assert_eq!(bursts(&dbm, rate), rust(&dbm));
    let label = format!("`noise_floor` and {} bursts, 12 s {}", rust(&dbm), at(rate));
    Row::new("demod.rs", TIMES, label, dbm, rust, move |dbm| bursts(dbm, rate))
}

fn dips_row(rate: u32) -> Row {
    let seg = load::frame_samples(rate);
    let nominal = f64::from(rate) / f64::from(BIT_RATE);
    let level = load::FRAME_DBM;
    let rust = move |seg: &Vec<f32>| find_dips(seg, nominal, level).len();
    let port = move |seg: &Vec<f32>| dips(seg, rate, level, &mut [0.0; SCRATCH64]);
    assert_eq!(port(&seg), rust(&seg));
    Row::new(
        "demod.rs",
        TIMES,
        format!("`find_dips`, 12-byte frame {}", at(rate)),
        seg,
        rust,
        port,
    )
}

fn bits_row(rate: u32) -> Row {
    let seg = load::frame_samples(rate);
    let rust = move |seg: &Vec<f32>| burst_bits(seg, rate).map_or(0, |b| b.bits.len());
    let port = move |seg: &Vec<f32>| {
        let mut scratch32 = vec![0.0; BUFFER_S * rate as usize];
        bits(seg, rate, &mut [0; BITS], &mut scratch32, &mut [0.0; SCRATCH64])
    };
    assert_eq!(port(&seg), rust(&seg));
    Row::new(
        "demod.rs",
        TIMES,
        format!("`burst_bits`, 12-byte frame {}", at(rate)),
        seg,
        rust,
        port,
    )
}

fn capture_row(rate: u32) -> Row {
    let dbm = load::samples(rate);
    let rust = move |dbm: &Vec<f32>| decode_capture(dbm, rate, 0.0, None).len();
    let port = move |dbm: &Vec<f32>| {
        let mut scratch32 = vec![0.0; BUFFER_S * rate as usize];
        capture(dbm, rate, &mut [0; EVENTS], &mut scratch32, &mut [0.0; SCRATCH64])
    };
    assert_eq!(port(&dbm), rust(&dbm));
    Row::new(
        "demod.rs",
        TIMES,
        format!("`decode_capture`, 12 s {}", at(rate)),
        dbm,
        rust,
        port,
    )
}
