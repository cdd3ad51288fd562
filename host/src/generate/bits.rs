//! Inputs of `bits`.

use super::frame::{BODY_BITS, Uplink, damage};
use super::put::Put;
use super::rng::Rng;
use super::{Case, case, cut};

const CLASSES: usize = 5;
const FRAME_TYPE_BITS: usize = 16;

fn of(label: impl Into<String>, bits: &[bool]) -> Case {
    case(label, Put::new().u16(bits.len() as u16).bits(bits))
}

fn bytes(label: impl Into<String>, bytes: &[u8]) -> Case {
    case(label, Put::new().u16(bytes.len() as u16).raw(bytes))
}

/// Each class and the control frames, with a length indicator.
fn uplinks(li: u8) -> Vec<Uplink> {
    let rest: Vec<u8> = (0..14).map(|i| 17 * i + 3).collect();
    let mut uplinks: Vec<Uplink> = (0..CLASSES)
        .map(|class| Uplink::new(class, 0x00c0_ffee + class as u32, 0x123, li, li % 2 == 1, &rest))
        .collect();
    let control = Uplink {
        control: true,
        ..uplinks[3].clone()
    };
    uplinks.push(control);
    uplinks
}

pub fn directed() -> Vec<Case> {
    let mut cases = vec![of("no bits", &[])];
    for length in [23, 24, 25, 38, 39, 1024] {
        cases.push(of(format!("{length} ones"), &vec![true; length]));
    }
    for (kind, uplink) in uplinks(1).iter().enumerate() {
        for rank in 0..3 {
            for start in 7..=23 {
                let bits = uplink.bits(rank, start);
                cases.push(of(format!("kind {kind} rank {rank} at {start}"), &bits));
            }
            lengths(&mut cases, uplink, kind, rank);
        }
    }
    for li in [0, 2, 3] {
        for (kind, uplink) in uplinks(li).iter().enumerate() {
            cases.push(of(format!("kind {kind} with LI {li}"), &uplink.bits(0, 16)));
        }
    }
    for rank in 0..3 {
        single_damages(&mut cases, rank);
    }
    overlaps(&mut cases);
    refused(&mut cases);
    cases
}

/// Two frame types that share bits, where only the second has a right frame: the first decides.
fn overlaps(cases: &mut Vec<Case>) {
    let frames: Vec<Vec<bool>> = uplinks(0)
        .iter()
        .flat_map(|u| [0, 1, 2].map(|rank| u.frame(rank)))
        .collect();
    for first in &frames {
        for second in &frames {
            for apart in 1..FRAME_TYPE_BITS {
                let joined = [&first[..apart], second].concat();
                if joined[..FRAME_TYPE_BITS] == first[..FRAME_TYPE_BITS] {
                    let short = [&Uplink::preamble(8), &joined[..]].concat();
                    cases.push(of(format!("types {apart} apart"), &short));
                    let long = [&short[..], &[true; 70]].concat();
                    cases.push(of(format!("types {apart} apart, long"), &long));
                }
            }
        }
    }
}

/// Bodies that end early, exactly, or late.
fn lengths(cases: &mut Vec<Case>, uplink: &Uplink, kind: usize, rank: usize) {
    let bits = uplink.bits(rank, 16);
    for missing in 1..=2 {
        let short = &bits[..bits.len() - missing];
        cases.push(of(format!("kind {kind} rank {rank}, {missing} missing"), short));
        let mut middle = bits.clone();
        for _ in 0..missing {
            middle.remove(60);
        }
        cases.push(of(format!("kind {kind} rank {rank}, {missing} lost at 60"), &middle));
    }
    let mut last = bits.clone();
    let n = last.len();
    last[n - 1] = !last[n - 1];
    cases.push(of(format!("kind {kind} rank {rank}, last bit wrong"), &last));
    last.push(true);
    cases.push(of(format!("kind {kind} rank {rank}, last bit wrong, one more"), &last));
    let header_only = &bits[..16 + FRAME_TYPE_BITS + 15];
    cases.push(of(format!("kind {kind} rank {rank}, 15 body bits"), header_only));
    let mut wrong = bits;
    for at in [40, 53, 71, 90] {
        wrong[at] = !wrong[at];
    }
    cases.push(of(format!("kind {kind} rank {rank}, four bits wrong"), &wrong));
    wrong.extend([false; 300]);
    cases.push(of(format!("kind {kind} rank {rank}, four wrong, long"), &wrong));
}

/// Every single damage of the shortest body.
fn single_damages(cases: &mut Vec<Case>, rank: usize) {
    let bits = uplinks(0)[0].bits(rank, 18);
    let body = 18 + FRAME_TYPE_BITS;
    for at in body..body + BODY_BITS[0] {
        let mut flipped = bits.clone();
        flipped[at] = !flipped[at];
        cases.push(of(format!("rank {rank} flipped at {}", at - body), &flipped));
        let mut lost = bits.clone();
        lost.remove(at);
        cases.push(of(format!("rank {rank} lost at {}", at - body), &lost));
        for bit in [false, true] {
            let mut gained = bits.clone();
            gained.insert(at, bit);
            cases.push(of(format!("rank {rank} gained {bit} at {}", at - body), &gained));
        }
    }
}

fn refused(cases: &mut Vec<Case>) {
    let frame: Vec<u8> = uplinks(0)[2].bits(0, 16).iter().map(|&b| b.into()).collect();
    let mut long = frame.clone();
    long.resize(1024, 0);
    cases.push(bytes("1,024 bits", &long));
    long[1023] = 2;
    cases.push(bytes("a bit byte 2 far behind the frame", &long));
    long.push(0);
    cases.push(bytes("1,025 bits and a bit byte 2", &long));
    long[1023] = 0;
    cases.push(bytes("1,025 bits", &long));
    let mut over = frame;
    over[0] = 255;
    cases.push(bytes("a bit byte 255 first", &over));
}

pub fn random(rng: &mut Rng) -> Case {
    let uplink = Uplink::random(rng);
    let rank = rng.below(3);
    let mut bits = uplink.bits(rank, rng.range(4, 26));
    let label = match rng.below(10) {
        0 => {
            let length = if rng.chance(0.1) {
                rng.range(0, 1100)
            } else {
                rng.range(0, 250)
            };
            bits = rng.bits(length);
            "random bits".to_string()
        }
        1 => {
            let keep = rng.range(0, bits.len());
            bits.truncate(keep);
            "frame that ends early".to_string()
        }
        2 => {
            let body = rng.range(0, 200);
            bits = uplink.bits(rank, 16)[..32].to_vec();
            bits.extend(rng.bits(body));
            "frame type, then random bits".to_string()
        }
        errors => {
            let errors = errors.saturating_sub(5);
            let from = if rng.chance(0.8) { 32 } else { 0 };
            for _ in 0..errors {
                damage(rng, &mut bits, from);
            }
            format!("{errors} damages")
        }
    };
    if rng.chance(0.5) {
        let more = rng.range(0, 60);
        bits.extend(rng.bits(more));
    }
    let whole = of(label, &bits);
    if rng.chance(0.02) {
        let mut bytes: Vec<u8> = bits.iter().map(|&b| b.into()).collect();
        let over = rng.next() as u8;
        if let Some(place) = bytes.last_mut() {
            *place = over;
        }
        return self::bytes("a bit byte over 1", &bytes);
    }
    if rng.chance(0.01) { cut(rng, 0, whole) } else { whole }
}
