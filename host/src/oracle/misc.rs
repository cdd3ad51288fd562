//! `misc`: the small functions.

use super::bursts::checked_noise_floor;
use super::{line, spans};
use crate::limits::{self, MOST_BITS};
use crate::rust::demod::round;
use crate::rust::frame::{self, ControlKind, DeviceId, UplinkFields};
use crate::rust::frequency::{cfo_signed, cfo_step_hz};
use crate::rust::receiver::estimate_first_frame_end;
use crate::text::{Input, digits, hex_bytes, hex32, hex64, or_dash};
use crate::trig;

pub fn case(input: &mut Input, out: &mut String) -> Option<()> {
    let answer = match input.u8()? {
        0 => Ok(format!("crc16 {:04x}", frame::crc16(input.bytes()?))),
        1 => convolution("deconvolve", frame::deconvolve, input.u8()?, input.bytes()?),
        2 => convolution("convolve", frame::convolve, input.u8()?, input.bytes()?),
        3 => header(input)?,
        4 => Ok(control(input.bytes()?)),
        5 => {
            let (code, bit_rate) = (input.u8()?, input.u32()?);
            limits::number(bit_rate != 0).map(|()| format!("step {}", hex64(cfo_step_hz(code, bit_rate))))
        }
        6 => Ok(format!("signed {}", cfo_signed(input.u16()?))),
        7 => {
            let a = input.f64()?;
            Ok(format!("trig {} {}", hex64(trig::sin(a)), hex64(trig::cos(a))))
        }
        8 => {
            let (s, c) = (input.f64()?, input.f64()?);
            Ok(format!("atan2 {}", hex64(trig::atan2(s, c))))
        }
        9 => checked_noise_floor(&input.f32s()?).map(|v| format!("floor {}", hex32(v))),
        10 => {
            let count = input.u8()?;
            let spans = spans(input, count)?;
            spans.map(|spans| format!("ffe {}", or_dash(estimate_first_frame_end(&spans).map(hex64))))
        }
        11 => Ok(format!("round {}", hex64(round(input.f64()?)))),
        call => panic!("misc has no call {call}"),
    };
    line(out, answer);
    Some(())
}

fn convolution(name: &str, f: fn(&[bool], usize) -> Vec<bool>, rank: u8, bits: &[u8]) -> Result<String, u8> {
    limits::at_most(bits.len(), MOST_BITS)?;
    limits::rank(rank)?;
    let bits = limits::bits(bits)?;
    Ok(format!("{name} {}", digits(&f(&bits, rank.into()))))
}

fn header(input: &mut Input) -> Option<Result<String, u8>> {
    let device_id = DeviceId(input.u32()?);
    let counter = input.u16()?;
    let bit = [None, Some(false), Some(true)][usize::from(input.u8()?)];
    let downlink = input.u8()? != 0;
    let payload = input.bytes()?;
    Some(limits::number(payload.len() <= 12).map(|()| {
        let h = frame::uplink_header(&UplinkFields {
            device_id,
            counter,
            payload,
            bit,
            downlink,
        });
        format!("header {} {} {}", hex_bytes(&h.bytes), h.class, h.auth_size)
    }))
}

fn control(payload: &[u8]) -> String {
    let Some(m) = frame::decode_control(payload) else {
        return "control -".to_string();
    };
    format!(
        "control {} {} {} {} {}",
        u8::from(m.kind == ControlKind::DownlinkConfirmation),
        m.voltage_idle_mv,
        m.voltage_tx_mv,
        hex64(m.temperature_c),
        or_dash(m.downlink_rssi_dbm)
    )
}
