//! Depths of frames and of their messages (request 05).

use super::given::{State, Waiting};
use super::{Calls, deep, two_bytes};
use crate::generate::Case;
use crate::generate::frame::Uplink;
use crate::generate::signal::{Air, Shape};

/// Rank, level and depth of a frame.
type Frame = (usize, f64, f64);

/// Frames two seconds apart, of one message; where each is of rank 0, of one message each.
const LISTS: [(&str, &[Frame]); 7] = [
    (
        "the first deepest",
        &[(0, -60.0, 30.0), (1, -60.0, 20.25), (2, -60.0, 10.0)],
    ),
    (
        "the first least deep",
        &[(0, -60.0, 6.75), (1, -60.0, 20.0), (2, -60.0, 30.5)],
    ),
    (
        "rank 2 first, rank 0 loudest",
        &[(2, -60.0, 12.5), (0, -40.0, 20.0), (1, -50.0, 9.0)],
    ),
    ("a rank twice", &[(1, -60.0, 15.0), (1, -50.0, 25.0)]),
    (
        "a fourth frame",
        &[(0, -60.0, 8.0), (1, -60.0, 9.0), (2, -60.0, 10.0), (0, -60.0, 11.5)],
    ),
    ("half decibels", &[(0, -60.0, 20.25), (0, -60.0, 20.5)]),
    (
        "255 and more",
        &[(0, 0.0, 127.25), (0, 0.0, 127.5), (0, 0.0, 128.0), (0, 0.0, 139.0)],
    ),
];

/// Repetitions of other depths: a message has that of the frame that opened it, which need be neither rank 0 nor the loudest.
pub fn directed(cases: &mut Vec<Case>) {
    for (label, list) in LISTS {
        let of_one = list.iter().any(|&(rank, ..)| rank != 0);
        let mut air = Air::quiet(1000, 12_000, -140.0);
        for (i, &(rank, level, depth)) in list.iter().enumerate() {
            let uplink = two_bytes(if of_one { 1 } else { i as u32 });
            air.send(1000 + 2000 * i, &deep(&uplink, rank, 1000, level, depth));
        }
        let dbm = air.samples();
        cases.push(Calls::new(1000).push(&dbm).flush().case(format!("{label}, one push")));
        cases.push(
            Calls::new(1000)
                .pushes(500, &dbm)
                .flush()
                .case(format!("{label}, half seconds")),
        );
    }
    wrong_crc_first(cases);
    given_depth(cases);
}

/// A frame with a wrong CRC opens no message.
fn wrong_crc_first(cases: &mut Vec<Case>) {
    let mut bits = two_bytes(1).bits(0, 16);
    // three bits, so that none is repaired
    for at in [60, 75, 90] {
        bits[at] = !bits[at];
    }
    let mut air = Air::quiet(1000, 8000, -110.0);
    let shape = Shape {
        depth: 33.0,
        ..Shape::clean(-60.0)
    };
    air.send(1000, &shape.envelope(&bits, 1000));
    air.send(4000, &deep(&two_bytes(1), 1, 1000, -60.0, 13.0));
    cases.push(
        Calls::new(1000)
            .push(&air.samples())
            .flush()
            .case("a wrong CRC, then a right one"),
    );
}

/// A message that was handed in keeps its depth when a frame joins it.
fn given_depth(cases: &mut Vec<Case>) {
    let mut air = Air::quiet(1000, 4000, -110.0);
    let uplink = Uplink::new(2, 0x0109, 9, 2, false, &[0xab, 0xcd, 1, 2, 3, 4]);
    air.send(1000, &deep(&uplink, 1, 1000, -40.0, 13.0));
    for depth in [0, 7, 254, 255] {
        let state = State {
            base: 10_000,
            unscanned: 0,
            held: vec![],
            starts: vec![],
            waiting: vec![Waiting::plain(9, 9.0, 9000).deep(depth).joined(9.0)],
        };
        let calls = Calls::new(1000).given(&state).push(&air.samples()).flush();
        cases.push(calls.case(format!("a given depth of {depth}")));
    }
}

#[cfg(test)]
mod tests {
    use super::super::edges;
    use super::*;
    use crate::oracle::lines;

    /// Byte 33, and the bytes that name the record: kind, start sample, flags.
    struct Heard {
        depth: u8,
        is_message: bool,
        start: String,
        is_right: bool,
    }

    fn heard(case: &Case) -> Vec<Heard> {
        let answers = lines("events", &case.bytes).expect("it is a format");
        let records = answers.lines().filter(|line| line.len() == 240);
        let byte = |record: &str, at: usize| u8::from_str_radix(&record[2 * at..2 * at + 2], 16).expect("two digits");
        records
            .map(|record| Heard {
                depth: byte(record, 33),
                is_message: byte(record, 0) == 2,
                start: record[224..].to_string(),
                is_right: byte(record, 2) & 4 != 0,
            })
            .collect()
    }

    fn bytes(case: &Case, is_message: bool) -> Vec<u8> {
        let records = heard(case);
        records
            .iter()
            .filter(|r| r.is_message == is_message)
            .map(|r| r.depth)
            .collect()
    }

    fn labelled(label: &str) -> Case {
        let mut cases = vec![];
        directed(&mut cases);
        cases
            .into_iter()
            .find(|c| c.label == label)
            .expect("there is such a case")
    }

    /// "a message has its first frame's": the one with the message's start sample, over all edges without a given state.
    #[test]
    fn first_frames_depth() {
        let mut others = 0;
        for case in edges::directed().iter().filter(|c| !c.label.contains("given")) {
            let records = heard(case);
            let (messages, frames): (Vec<&Heard>, Vec<&Heard>) = records.iter().partition(|r| r.is_message);
            for message in messages {
                let first = frames
                    .iter()
                    .find(|f| f.start == message.start)
                    .expect("a frame opened it");
                assert!(first.is_right);
                assert_eq!(message.depth, first.depth, "{}", case.label);
                others += usize::from(frames.iter().any(|f| f.depth != first.depth));
            }
        }
        assert!(others > 30, "{others}");
    }

    #[test]
    fn depths_of_the_frames() {
        let case = labelled("rank 2 first, rank 0 loudest, half seconds");
        assert_eq!(bytes(&case, false), [25, 40, 18]);
        assert_eq!(bytes(&case, true), [25]);
        let case = labelled("255 and more, one push");
        assert_eq!(bytes(&case, false), [254, 255, 255, 255]);
        assert_eq!(bytes(&case, true), [254, 255, 255, 255]);
        let case = labelled("a fourth frame, half seconds");
        assert_eq!(bytes(&case, false), [16, 18, 20, 23]);
        assert_eq!(bytes(&case, true), [16, 23]);
    }

    /// The frame with a wrong CRC has its depth, and no message has.
    #[test]
    fn wrong_crc() {
        let case = labelled("a wrong CRC, then a right one");
        let wrong: Vec<bool> = heard(&case).iter().map(|r| !r.is_right).collect();
        assert_eq!(wrong, [true, false, false]);
        assert_eq!((bytes(&case, false), bytes(&case, true)), (vec![66, 26], vec![26]));
    }

    /// The depth of a message that was handed in stays.
    #[test]
    fn given_depths() {
        for depth in [0, 7, 254, 255] {
            let case = labelled(&format!("a given depth of {depth}"));
            assert_eq!((bytes(&case, false), bytes(&case, true)), (vec![26], vec![depth]));
        }
    }
}
