//! Inputs of `writer`.

use super::put::Put;
use super::rng::Rng;
use super::{Case, case, cut};

/// The places of all three repetitions.
const ALL_PLACES: u16 = 636;
const MOST_ROOM: usize = 700;
const BITS: u8 = 3;

/// A case before it is written out.
#[derive(Clone)]
pub struct Message {
    pub device: u32,
    pub counter: u16,
    /// 0 none, 1 false, 2 true
    pub bit: u8,
    pub downlink: bool,
    pub payload: Vec<u8>,
    pub auth: Vec<u8>,
    room: u16,
    fill: u8,
}

impl Message {
    /// One that is accepted: a payload of n bytes, or a bit where there is none.
    pub fn of(n: usize, bit: u8) -> Self {
        let auth = auth_size(n);
        Self {
            device: 0x00c0_ffee,
            counter: 0x123,
            bit,
            downlink: n % 2 == 1,
            payload: (0..n as u8).map(|i| 0x10 + 0x11 * i).collect(),
            auth: (0..auth as u8).map(|i| 0xe1 - 0x0f * i).collect(),
            room: 640,
            fill: 7,
        }
    }

    fn case(&self, label: impl Into<String>) -> Case {
        let put = Put::new().u32(self.device).u16(self.counter).u8(self.bit);
        let put = put.u8(self.downlink.into()).bytes(&self.payload).bytes(&self.auth);
        case(label, put.u16(self.room).u8(self.fill))
    }
}

/// Bytes of authentication that a payload calls for: what fills its class's frame up.
pub fn auth_size(n: usize) -> usize {
    match n {
        0 | 1 => 2,
        _ => 2 + n.next_multiple_of(4) - n,
    }
}

pub fn directed() -> Vec<Case> {
    let mut cases = vec![];
    examples(&mut cases);
    for n in 0..=12 {
        cases.push(Message::of(n, 0).case(format!("{n} bytes")));
    }
    for bit in [1, 2] {
        cases.push(Message::of(0, bit).case(format!("bit {bit}")));
    }
    for counter in [0, 1, 255, 256, 4094, 4095, 4096, 4097, 0xf123, u16::MAX] {
        let message = Message {
            counter,
            ..Message::of(9, 0)
        };
        cases.push(message.case(format!("counter {counter}")));
    }
    for device in [0, 1, 0x0102_0304, 0xff00_0000, u32::MAX] {
        let message = Message {
            device,
            ..Message::of(0, 0)
        };
        cases.push(message.case(format!("device {device:08x}")));
    }
    for room in [0, 1, 211, 212, 424, 635, 636, 637, 700] {
        let message = Message {
            room,
            ..Message::of(12, 0)
        };
        cases.push(message.case(format!("{room} places")));
    }
    for fill in [0, 1, 2, 255] {
        let message = Message {
            fill,
            ..Message::of(0, 0)
        };
        cases.push(message.case(format!("filled with {fill}")));
    }
    refusals(&mut cases);
    cases
}

/// The examples of the client's formats.
fn examples(cases: &mut Vec<Case>) {
    let two = Message {
        device: 0x0123_abcd,
        counter: 291,
        bit: 0,
        downlink: false,
        payload: vec![0xca, 0xfe],
        auth: vec![1, 2, 3, 4],
        room: ALL_PLACES,
        fill: 7,
    };
    cases.push(two.case("example 1"));
    let bit = Message {
        device: 1,
        counter: 4095,
        bit: 2,
        downlink: true,
        payload: vec![],
        auth: vec![5, 6],
        room: 640,
        fill: 255,
    };
    cases.push(bit.case("example 2"));
    let auth = Message {
        device: 1,
        counter: 5,
        auth: vec![1, 2, 3],
        ..two
    };
    cases.push(auth.case("example 3"));
    let short = Message {
        counter: 4096,
        bit: 0,
        downlink: false,
        auth: vec![1, 2],
        room: 635,
        fill: 1,
        ..bit
    };
    cases.push(short.case("example 4"));
}

/// Each cause alone, and 2 before 10.
fn refusals(cases: &mut Vec<Case>) {
    for n in 0..=12 {
        for size in [auth_size(n) - 1, auth_size(n) + 1] {
            let auth = vec![0x5a; size];
            cases.push(
                Message {
                    auth,
                    ..Message::of(n, 0)
                }
                .case(format!("{n} bytes, auth of {size}")),
            );
        }
    }
    for n in [13, 14] {
        cases.push(Message::of(n, 0).case(format!("{n} bytes")));
    }
    for (n, bit) in [(1, 1), (1, 2), (12, 1), (12, 2)] {
        for size in [2, auth_size(n)] {
            let auth = vec![0x5a; size];
            cases.push(
                Message {
                    auth,
                    ..Message::of(n, bit)
                }
                .case(format!("{n} bytes and bit {bit}")),
            );
        }
    }
    let all = Message {
        counter: 4096,
        auth: vec![0; 6],
        room: 635,
        ..Message::of(13, 2)
    };
    cases.push(all.case("every cause"));
}

/// What the gate replays: the directed cases, some random ones, and one that is cut short.
pub fn sample() -> Case {
    let mut rng = Rng::new(1);
    let whole = (0..10).map(|_| random(&mut rng)).filter(|c| !c.short);
    let mut bytes: Vec<u8> = directed().into_iter().chain(whole).flat_map(|c| c.bytes).collect();
    bytes.extend(cut(&mut rng, 0, Message::of(12, 0).case("cut")).bytes);
    Case {
        label: "directed cases, then random ones".to_string(),
        bytes,
        short: true,
    }
}

pub fn random(rng: &mut Rng) -> Case {
    let message = message(rng);
    let whole = message.case(format!("{} bytes", message.payload.len()));
    if rng.chance(0.01) { cut(rng, 0, whole) } else { whole }
}

/// One that is accepted, or spoiled.
pub fn message(rng: &mut Rng) -> Message {
    let n = rng.below(13);
    let bit = if n == 0 { rng.below(BITS.into()) as u8 } else { 0 };
    let mut message = Message {
        device: rng.next() as u32,
        counter: rng.below(4096) as u16,
        downlink: rng.chance(0.5),
        payload: rng.bytes(n),
        auth: rng.bytes(auth_size(n)),
        room: rng.range(ALL_PLACES.into(), MOST_ROOM) as u16,
        fill: rng.next() as u8,
        ..Message::of(n, bit)
    };
    if rng.chance(0.3) {
        spoil(rng, &mut message);
    }
    message
}

/// One argument taken at random, so that it mostly is refused.
fn spoil(rng: &mut Rng, message: &mut Message) {
    match rng.below(5) {
        0 => message.counter = rng.next() as u16,
        1 => message.bit = rng.below(BITS.into()) as u8,
        2 => {
            let n = rng.below(20);
            message.payload = rng.bytes(n);
        }
        3 => {
            let n = rng.below(9);
            message.auth = rng.bytes(n);
        }
        _ => message.room = rng.below(MOST_ROOM + 1) as u16,
    }
}
