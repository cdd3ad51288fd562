//! Inputs of `charges`.

use super::given::{self, FRAME, LEAST, MESSAGE, MOST_RECORDS, Record, not_finite};
use super::put::Put;
use super::rng::Rng;
use super::{Case, case, cut};

const DAY_S: i64 = 86_400;
const DAYS: i64 = 31;
const LATEST_START: i64 = 10_000_000_000;
const MOST_MONEY: u32 = 1_000_000;

/// Of no step to ten, rising or not; the last one is not read.
const UPPER_COUNTS: [&[u32]; 19] = [
    &[],
    &[0],
    &[u32::MAX],
    &[0, 0],
    &[5, 0],
    &[0, 5],
    &[u32::MAX, 0],
    &[3, 3],
    &[3, 3, 9],
    &[3, 2, 9],
    &[2, 3, 0],
    &[2, 3, 3],
    &[0, 1, 2, 3, 4, 5, 6, 7],
    &[1, 2, 3, 4, 5, 6, 7, 7],
    &[1, 2, 3, 4, 5, 6, 6, 9],
    &[1, 1, 3, 4, 5, 6, 7, 9],
    &[1, 2, 3, 4, 5, 6, 7, 8, 9],
    &[1, 2, 3, 4, 5, 6, 7, 8, 9, 10],
    &[9, 10, 11, 12],
];

/// A case before it is written out.
#[derive(Clone)]
struct Month {
    fee: u32,
    allowance: u32,
    /// Upper count and price of each
    steps: Vec<(u32, u32)>,
    start: i64,
    records: Vec<u8>,
}

impl Month {
    /// A cent for each message after the first of a day.
    fn of(start: i64, times: &[f64]) -> Self {
        let messages: Vec<Record> = times.iter().map(|&t| message(t)).collect();
        Self {
            fee: 0,
            allowance: 1,
            steps: vec![(0, 1000)],
            start,
            records: given::bytes(&messages),
        }
    }

    fn case(&self, label: impl Into<String>) -> Case {
        let put = Put::new().u32(self.fee).u32(self.allowance).u8(self.steps.len() as u8);
        let put = self
            .steps
            .iter()
            .fold(put, |put, &(upper, price)| put.u32(upper).u32(price));
        case(label, put.u64(self.start as u64).bytes(&self.records))
    }
}

fn message(time: f64) -> Record {
    Record::plain(MESSAGE).device(1).time(time)
}

pub fn directed() -> Vec<Case> {
    let mut cases = small();
    large(&mut cases);
    cases
}

/// The edges that need few records.
fn small() -> Vec<Case> {
    let mut cases = vec![];
    examples(&mut cases);
    money(&mut cases);
    extras(&mut cases);
    steps(&mut cases);
    days(&mut cases);
    midnights(&mut cases);
    starts(&mut cases);
    lists(&mut cases);
    causes(&mut cases);
    cases
}

/// The examples of the client's formats.
fn examples(cases: &mut Vec<Case>) {
    let month = Month {
        fee: 500,
        steps: vec![(2, 1500), (0, 100)],
        ..Month::of(0, &[0.0, 1.0, 2.0, 3.0, 86_399.5, 86_400.0, 100_000.0])
    };
    cases.push(month.case("example 1"));
    let one = Month {
        allowance: 0,
        steps: vec![(0, 1)],
        ..Month::of(10, &[10.0])
    };
    cases.push(one.case("example 2"));
    let no_step = Month {
        allowance: 0,
        steps: vec![],
        ..Month::of(0, &[])
    };
    cases.push(no_step.case("example 3"));
    let before = Month {
        records: Month::of(10, &[10.0, 9.5]).records,
        ..one
    };
    cases.push(before.case("example 4"));
}

/// Fees, and prices in each step.
fn money(cases: &mut Vec<Case>) {
    let three = Month::of(0, &[1.0, 2.0, 90_000.0]);
    let edges = [
        0,
        1,
        999,
        1000,
        1001,
        MOST_MONEY - 1,
        MOST_MONEY,
        MOST_MONEY + 1,
        u32::MAX,
    ];
    for amount in edges {
        let fee = Month {
            fee: amount,
            ..three.clone()
        };
        cases.push(fee.case(format!("fee {amount}")));
        for place in 0..3 {
            let mut month = Month {
                allowance: 0,
                steps: vec![(1, 10), (3, 20), (9, 30)],
                ..three.clone()
            };
            month.steps[place].1 = amount;
            cases.push(month.case(format!("price {amount} in step {place}")));
        }
    }
}

/// Allowances, and how the thousandths of three days are rounded.
fn extras(cases: &mut Vec<Case>) {
    let three = Month::of(0, &[1.0, 2.0, 90_000.0]);
    for allowance in [0, 1, 2, 3, 4, u32::MAX] {
        let month = Month {
            allowance,
            ..three.clone()
        };
        cases.push(month.case(format!("{allowance} a day")));
    }
    for price in [1, 333, 334, 499, 500, 501, 667] {
        let month = Month {
            fee: 7,
            allowance: 0,
            steps: vec![(0, price)],
            ..three.clone()
        };
        cases.push(month.case(format!("three days' extras of {price}")));
    }
}

/// One to eight steps and more, and their upper counts.
fn steps(cases: &mut Vec<Case>) {
    let day: Vec<f64> = (0..12).map(f64::from).collect();
    let mut month = Month {
        allowance: 2,
        ..Month::of(0, &day)
    };
    for list in UPPER_COUNTS {
        month.steps = list
            .iter()
            .zip(1..)
            .map(|(&upper, i)| (upper, 100_000 + i * i * 7))
            .collect();
        cases.push(month.case(format!("upper counts {list:?}")));
    }
    month.steps = (0..255).map(|i| (i, i)).collect();
    cases.push(month.case("255 steps"));
}

/// Each day begins at the lowest step.
fn days(cases: &mut Vec<Case>) {
    let days: Vec<f64> = (0..12).map(|i| f64::from(i % 3) * 86_400.0).collect();
    for upper in 0..6 {
        let month = Month {
            allowance: 0,
            steps: vec![(upper, 1), (upper + 2, 100), (0, 10_000)],
            ..Month::of(0, &days)
        };
        cases.push(month.case(format!("three days, steps from {upper}")));
    }
}

/// Two messages beside a midnight are of one day, where the second costs a cent, or of two, where none does.
fn midnights(cases: &mut Vec<Case>) {
    for start in [0, LATEST_START] {
        for day in 0..=DAYS {
            let midnight = (start + DAY_S * day) as f64;
            let mut pairs = vec![[midnight.next_down(), midnight]];
            if [0, 1, 15, 30, 31].contains(&day) {
                pairs.push([midnight.next_down(), midnight - 1.0]);
                pairs.push([midnight, midnight.next_up()]);
                pairs.push([midnight, midnight + 86_399.5]);
                pairs.push([midnight, (midnight + 86_400.0).next_down()]);
                pairs.push([midnight + 86_400.0, midnight]);
            }
            for pair in pairs {
                cases.push(Month::of(start, &pair).case(format!("midnight {day} from {start}")));
            }
        }
    }
    for time in [-0.0, 0.0, LEAST, -LEAST, -1.0, 0.5, f64::MAX, f64::MIN] {
        cases.push(Month::of(0, &[time, 5.0]).case(format!("time {time:e}")));
    }
    for time in not_finite() {
        let label = format!("time {:016x}", time.to_bits());
        cases.push(Month::of(0, &[5.0, time, 6.0]).case(label));
    }
}

/// Month's starts, with a message that lies in the month and without one.
fn starts(cases: &mut Vec<Case>) {
    let edges = [
        i64::MIN,
        i64::MIN + 1,
        -DAY_S,
        -1,
        0,
        1,
        1 << 32,
        LATEST_START - 1,
        LATEST_START,
        LATEST_START + 1,
        (1 << 53) + 1,
        i64::MAX - 31 * DAY_S,
        i64::MAX,
    ];
    for start in edges {
        for times in [&[][..], &[start as f64]] {
            cases.push(Month::of(start, times).case(format!("start {start}")));
        }
    }
}

/// Frames are skipped, devices don't count, and the order of the records doesn't either.
fn lists(cases: &mut Vec<Case>) {
    let frame = |time: f64| Record::plain(FRAME).time(time);
    let odd_times = not_finite().map(frame);
    let mut records = given::odd_frames();
    records.extend(odd_times);
    records.extend([frame(-1.0), frame(1e12), message(1.0), frame(1.0), message(2.0)]);
    let month = Month::of(0, &[]);
    let with = |records: &[Record]| Month {
        records: given::bytes(records),
        ..month.clone()
    };
    cases.push(with(&records).case("frames that would be refused"));
    let ends = [(-200.0, 1), (100.0, 7), (-0.0, 4)].map(|(rssi, ranks)| message(5.0).rssi(rssi).ranks(ranks));
    cases.push(with(&ends).case("RSSI at its ends"));
    let devices = [0, 1, u32::MAX].map(|d| message(5.0).device(d));
    cases.push(with(&devices).case("one day, three devices"));
    let mut rng = Rng::new(13);
    let times = [0.0, 86_399.0, 86_400.0, 86_401.0, 172_800.0, 2_678_399.5];
    let mut records: Vec<Record> = (0..18).map(|i| Record::noise(&mut rng).time(times[i % 6])).collect();
    for turn in 0..4 {
        let mut month = with(&records);
        month.steps = vec![(1, 250), (0, 1)];
        cases.push(month.case(format!("permuted {turn}")));
        given::shuffle(&mut rng, &mut records);
    }
}

/// Each cause, and the lower number where two hold.
fn causes(cases: &mut Vec<Case>) {
    for (i, (label, records)) in given::bad_lists().into_iter().enumerate() {
        let mut month = Month {
            records,
            ..Month::of(0, &[])
        };
        match i % 3 {
            0 => month.steps.clear(),
            1 => month.start = -1,
            _ => {}
        }
        cases.push(month.case(label));
    }
    for time in [-1.0, f64::NAN, 1e12] {
        let outside = Month::of(0, &[1.0, time]);
        let mut bad_plans = vec![outside.clone(); 5];
        bad_plans[0].steps.clear();
        bad_plans[1].steps = vec![(0, 1); 9];
        bad_plans[2].steps = vec![(2, 1), (1, 1), (0, 1)];
        bad_plans[3].fee = MOST_MONEY + 1;
        bad_plans[4].start = LATEST_START + 1;
        for plan in bad_plans {
            cases.push(plan.case("15 before 16"));
        }
        let mut unknown = outside;
        unknown.records[0] = 3;
        cases.push(unknown.case("12 before 16"));
    }
    cases.push(Month::of(0, &[]).case("no record"));
}

/// As many records as a program is handed.
fn large(cases: &mut Vec<Case>) {
    let one_day: Vec<f64> = (0..MOST_RECORDS).map(|i| i as f64).collect();
    let month: Vec<f64> = (0..MOST_RECORDS).map(|i| i as f64 * 2678.4).collect();
    for times in [one_day, month] {
        for price in [1, MOST_MONEY] {
            let steps = (0..8).map(|i| (1 << i, price - u32::from(price > 8) * i)).collect();
            let month = Month {
                fee: MOST_MONEY,
                allowance: 0,
                steps,
                ..Month::of(0, &times)
            };
            cases.push(month.case("1,000 messages"));
        }
    }
}

/// What the gate replays: the small edges, some random cases, and one that is cut short.
pub fn sample() -> Case {
    let mut rng = Rng::new(1);
    let mut cases = small();
    cases.extend((0..30).map(|_| any(&mut rng, 8)));
    cases.push(cut(&mut rng, 0, Month::of(0, &[1.0]).case("cut")));
    Case {
        label: "directed cases, then random ones".to_string(),
        bytes: cases.into_iter().flat_map(|c| c.bytes).collect(),
        short: true,
    }
}

pub fn random(rng: &mut Rng) -> Case {
    let most = if rng.chance(0.02) { MOST_RECORDS } else { 40 };
    let whole = any(rng, most);
    if rng.chance(0.01) { cut(rng, 0, whole) } else { whole }
}

/// A plan, a month and a list; some are spoiled.
fn any(rng: &mut Rng, most: usize) -> Case {
    let count = rng.below(most + 1);
    let somewhere = (rng.next() % LATEST_START as u64) as i64;
    let start = rng.pick(&[0, 1, LATEST_START, somewhere]);
    let days = rng.pick(&[1, 2, DAYS]);
    let records: Vec<Record> = (0..count).map(|_| any_record(rng, start, days)).collect();
    let mut month = Month {
        fee: rng.below(MOST_MONEY as usize + 1) as u32,
        allowance: rng.below(4) as u32,
        steps: any_steps(rng),
        start,
        records: given::bytes(&records),
    };
    match rng.below(20) {
        0 | 1 => month.records = given::spoiled(rng, records),
        2..5 => spoil(rng, &mut month),
        _ => {}
    }
    month.case(format!("{count} records"))
}

/// Upper counts that rise but for the last, which is any number; low prices and high ones.
fn any_steps(rng: &mut Rng) -> Vec<(u32, u32)> {
    let mut upper = rng.below(2) as u32;
    let most = rng.pick(&[3, 1500, MOST_MONEY as usize]);
    let mut steps = vec![];
    for _ in 0..rng.range(1, 8) {
        steps.push((upper, rng.below(most + 1) as u32));
        upper += rng.range(1, 4) as u32;
    }
    let not_read = rng.next() as u32;
    if let Some(last) = steps.last_mut() {
        last.0 = rng.pick(&[0, upper, not_read]);
    }
    steps
}

/// One argument of the plan taken at random, so that it mostly is refused.
fn spoil(rng: &mut Rng, month: &mut Month) {
    let at = rng.below(month.steps.len());
    match rng.below(5) {
        0 => month.fee = rng.next() as u32,
        1 => month.start = rng.next() as i64,
        2 => month.steps[at].0 = rng.below(6) as u32,
        3 => month.steps[at].1 = rng.next() as u32,
        _ => {
            let count = rng.pick(&[0, 9, 12]);
            month.steps = (0..count).map(|i| (i, i)).collect();
        }
    }
}

/// A frame at any time, or a message in the month's first days, often beside midnight; seldom outside the month.
fn any_record(rng: &mut Rng, start: i64, days: i64) -> Record {
    let record = Record::noise(rng);
    if rng.chance(0.2) {
        return record.kind(FRAME).ranks(rng.next() as u8);
    }
    let midnight = (start + DAY_S * rng.below(days as usize) as i64) as f64;
    let inside = midnight + rng.real(0.0, 86_399.0);
    let end = midnight + 86_400.0;
    let mut time = rng.pick(&[midnight, midnight.next_up(), end.next_down(), inside, inside, inside]);
    if rng.chance(0.003) {
        let outside = (start + DAY_S * DAYS) as f64;
        let odd = rng.pick(&not_finite());
        time = rng.pick(&[odd, outside, outside + 5.0, (start as f64).next_down(), -1.0]);
    }
    record.time(time)
}

#[cfg(test)]
mod tests {
    use super::*;
    use crate::oracle::lines;

    fn answers(cases: Vec<Case>) -> String {
        let input: Vec<u8> = cases.into_iter().flat_map(|c| c.bytes).collect();
        lines("charges", &input).expect("it is a format")
    }

    #[test]
    fn lines_of_the_examples() {
        let mut cases = vec![];
        examples(&mut cases);
        assert_eq!(answers(cases), "P 505\nP 1\nR 15\nR 16\n");
    }

    /// Request 13: the answer is the same in whichever order the records come.
    #[test]
    fn any_order() {
        let mut cases = vec![];
        lists(&mut cases);
        cases.retain(|c| c.label.starts_with("permuted"));
        let answers = answers(cases);
        let mut lines: Vec<&str> = answers.lines().collect();
        assert_eq!(lines.len(), 4);
        lines.dedup();
        assert_eq!(lines.len(), 1);
    }
}
