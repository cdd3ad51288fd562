//! Inputs of `misc`.

use super::put::Put;
use super::rng::Rng;
use super::{Case, case, cut, signal};

pub const ROWS: u8 = 12;

fn call(number: u8) -> Put {
    Put::new().u8(number)
}

pub fn directed() -> Vec<Case> {
    let mut cases = vec![];
    for data in [&b""[..], &[1], b"123456789", &[0; 40], &[255; 300]] {
        cases.push(case(format!("crc16 of {} bytes", data.len()), call(0).bytes(data)));
    }
    for way in [1, 2] {
        for rank in 0..=3 {
            cases.push(case("P4", call(way).u8(rank).bytes(&[1, 0, 0])));
            cases.push(case("no bits", call(way).u8(rank).bytes(&[])));
            cases.push(case("a bit byte 2", call(way).u8(rank).bytes(&[1, 2, 0])));
            cases.push(case("1,024 bits", call(way).u8(rank).bytes(&[1; 1024])));
            cases.push(case("1,025 bits", call(way).u8(rank).bytes(&[2; 1025])));
        }
    }
    headers(&mut cases);
    controls(&mut cases);
    numbers(&mut cases);
    floors(&mut cases);
    spans(&mut cases);
    cases
}

fn headers(cases: &mut Vec<Case>) {
    for n in 0..=13 {
        for bit in 0..3 {
            let payload: Vec<u8> = (0..n).map(|i| 0xa0 + i).collect();
            let put = call(3).u32(0x1234_5678).u16(0xf123).u8(bit).u8(n % 2).bytes(&payload);
            cases.push(case(format!("header of {n} bytes, bit {bit}"), put));
        }
    }
    cases.push(case("P9", call(3).u32(1).u16(0x123).u8(0).u8(0).bytes(&[1, 2])));
}

fn controls(cases: &mut Vec<Case>) {
    for length in 0..10 {
        for kind in [7, 8, 9] {
            let payload: Vec<u8> = [kind, 0x10, 0x0e, 0xff, 0x0f, 0x38, 0xff, 0x9c, 1][..length.min(9)].to_vec();
            cases.push(case(
                format!("control {kind} of {length} bytes"),
                call(4).bytes(&payload),
            ));
        }
    }
    cases.push(case("temperature 0", call(4).bytes(&[8, 0, 0, 0, 0, 0, 0])));
    cases.push(case("lowest temperature", call(4).bytes(&[8, 0, 0, 0, 0, 0, 128])));
}

fn numbers(cases: &mut Vec<Case>) {
    for code in 0..=255 {
        cases.push(case(format!("cfo_step_hz of {code}"), call(5).u8(code).u32(50_000)));
    }
    for bit_rate in [0, 1, 100, 250_000, 1_000_000, 8_000_000, u32::MAX] {
        for code in [0x0a, 0x0b, 0x18] {
            cases.push(case("cfo_step_hz", call(5).u8(code).u32(bit_rate)));
        }
    }
    for v in [0, 1, 0x7ff, 0x800, 0xfff, 0x1000, 0xffff, 0xf7ff] {
        cases.push(case("cfo_signed", call(6).u16(v)));
    }
    for a in [0.0, -0.0, 3.0, -3.0, 0.5, 100.0, -1e6, 1e15, 1e300, 5e-324] {
        cases.push(case("sin and cos", call(7).f64(a)));
    }
    let pi = std::f64::consts::PI;
    for k in -8..=8 {
        let a = f64::from(k) * pi / 4.0;
        cases.push(case("sin and cos of eighths", call(7).f64(a)));
    }
    let edges = [0.0, -0.0, 1.0, -1.0, 0.4, -2.5, 1e-300, 5e-324, 1e300, -1e300];
    for s in edges {
        for c in edges {
            cases.push(case("atan2", call(8).f64(s).f64(c)));
        }
    }
    let rounds = [
        2.5,
        -2.5,
        0.5,
        -0.5,
        0.499_999_999_999_999_94,
        -0.0,
        4_503_599_627_370_495.5,
        -1e300,
        0.3,
        -0.7,
    ];
    for x in rounds {
        cases.push(case("round", call(11).f64(x)));
    }
}

fn floors(cases: &mut Vec<Case>) {
    let lists: [&[f32]; 9] = [
        &[],
        &[-90.0],
        &[0.0, -0.0, 0.0, -0.0, -0.0],
        &[-1.0, -2.0, -3.0, -4.0, -5.0, -6.0],
        &[-200.0, 100.0],
        &[-200.00002],
        &[100.00001],
        &[f32::NAN],
        &[-50.0, f32::NEG_INFINITY],
    ];
    for list in lists {
        cases.push(case("noise floor", call(9).f32s(list)));
    }
    cases.push(case("48,000 samples", call(9).f32s(&vec![-100.0; 48_000])));
    cases.push(case("48,001 samples", call(9).f32s(&vec![f32::NAN; 48_001])));
}

fn spans(cases: &mut Vec<Case>) {
    cases.push(case("no spans", call(10).u8(0)));
    let ends = [
        (3.0, 4.45),
        (1e9, 1e9),
        (-1e9, -1e9),
        (1e9, 1.000_000_001e9),
        (f64::NAN, 1.0),
        (1.0, f64::INFINITY),
    ];
    for (time, end) in ends {
        for rank in 0..=3 {
            cases.push(case("one span", call(10).u8(1).u8(rank).f64(time).f64(end)));
        }
    }
    for ranks in [[0, 1, 2], [2, 1, 0], [0, 2, 1], [2, 2, 0], [0, 0, 0], [2, 0, 4]] {
        let put = ranks.iter().fold(call(10).u8(3), |put, &rank| {
            let time = 2.0 + 3.9 * f64::from(rank);
            put.u8(rank).f64(time).f64(time + 1.45)
        });
        cases.push(case(format!("spans {ranks:?}"), put));
    }
}

pub fn random(rng: &mut Rng) -> Case {
    let number = rng.below(ROWS.into()) as u8;
    let put = call(number);
    let put = match number {
        0 => {
            let n = rng.below(64);
            put.bytes(&rng.bytes(n))
        }
        1 | 2 => convolution(rng, put),
        3 => {
            let most = rng.pick(&[12, 12, 13]);
            let n = rng.below(most + 1);
            let put = put.u32(rng.next() as u32).u16(rng.next() as u16);
            put.u8(rng.below(3) as u8).u8(rng.below(2) as u8).bytes(&rng.bytes(n))
        }
        4 => {
            let n = rng.pick(&[0, 6, 7, 7, 7, 8, 8, 8, 9]);
            let mut payload = rng.bytes(n);
            if let Some(first) = payload.first_mut() {
                *first = rng.pick(&[8, 9, 8, 9, 8, 9, *first]);
            }
            put.bytes(&payload)
        }
        5 => {
            let shift = rng.below(32);
            put.u8(rng.next() as u8).u32((rng.next() as u32) >> shift)
        }
        6 => put.u16(rng.next() as u16),
        7 => put.f64(angle(rng)),
        8 => put.f64(coordinate(rng)).f64(coordinate(rng)),
        9 => {
            let n = rng.below(400);
            let dbm = levels(rng, n);
            put.f32s(&dbm)
        }
        10 => random_spans(rng, put),
        _ => {
            let scale = rng.pick(&[1.0, 10.0, 1e9, 1e17]);
            put.f64((rng.real(-scale, scale) * 4.0).floor() / 4.0)
        }
    };
    let whole = case(format!("call {number}"), put);
    if rng.chance(0.01) { cut(rng, 0, whole) } else { whole }
}

fn convolution(rng: &mut Rng, put: Put) -> Put {
    let n = rng.below(200);
    let rank = rng.pick(&[0, 1, 2, 0, 1, 2, 0, 1, 2, 3]);
    let mut bits: Vec<u8> = rng.bits(n).iter().map(|&b| b.into()).collect();
    if n > 0 && rng.chance(0.05) {
        bits[rng.below(n)] = 2;
    }
    put.u8(rank).bytes(&bits)
}

fn angle(rng: &mut Rng) -> f64 {
    let scale = rng.pick(&[1.0, 7.0, 100.0, 1e6, 1e-6]);
    rng.real(-scale, scale)
}

fn coordinate(rng: &mut Rng) -> f64 {
    let scale = rng.pick(&[1.0, 12.0, 1e-9, 0.0]);
    rng.real(-scale, scale)
}

fn levels(rng: &mut Rng, n: usize) -> Vec<f32> {
    let air = signal::Air {
        rate: 1000,
        dbm: (0..n).map(|_| rng.real(-130.0, -40.0)).collect(),
    };
    let mut dbm = if rng.chance(0.5) {
        air.samples()
    } else {
        signal::from_raw(&air.raw())
    };
    if n > 0 && rng.chance(0.1) {
        dbm[rng.below(n)] = rng.pick(&[f32::NAN, f32::INFINITY, 100.5, -201.0, -0.0, 0.0]);
    }
    dbm
}

fn random_spans(rng: &mut Rng, put: Put) -> Put {
    let count = rng.below(4);
    (0..count).fold(put.u8(count as u8), |put, _| {
        let rank = rng.pick(&[0, 1, 2, 0, 1, 2, 0, 1, 2, 3]);
        let time = rng.real(0.0, 100.0);
        let end = if rng.chance(0.05) {
            f64::NAN
        } else {
            time + rng.real(0.0, 3.0)
        };
        put.u8(rank).f64(time).f64(end)
    })
}
