//! The port's C function, safe to call from Rust (include/barshunet.h).

pub const RECORD: usize = 120;
const DECODED: u8 = 0;
const NO_FRAME: u8 = 255;

unsafe extern "C" {
    fn sigfox_decode_bits(bits: *const u8, bits_len: usize, record: *mut u8, record_len: usize) -> u8;
}

#[derive(Debug, PartialEq, Eq)]
pub enum Decoded {
    /// The record is written
    Frame,
    NoFrame,
    /// 01's number
    Refused(u8),
}

/// Decodes a frame's bits, a byte 0 or 1 each, into an event record. Nothing is written unless a frame is found.
pub fn decode_bits(bits: &[u8], record: &mut [u8]) -> Decoded {
    // The function reads the first slice and writes the second, each within its length; a `&mut` overlaps nothing.
    let answer = unsafe { sigfox_decode_bits(bits.as_ptr(), bits.len(), record.as_mut_ptr(), record.len()) };
    match answer {
        DECODED => Decoded::Frame,
        NO_FRAME => Decoded::NoFrame,
        n => Decoded::Refused(n),
    }
}
