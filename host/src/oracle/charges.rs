//! `charges`: what a month costs by a plan (request 13), from 02's text; the Rust has none.

use super::given::messages;
use super::line;
use crate::limits;
use crate::text::Input;

const MOST_STEPS: usize = 8;
/// Of the fee in cents and of a price in thousandths.
const MOST_MONEY: u32 = 1_000_000;
const LATEST_START: i64 = 10_000_000_000;
const DAY_S: i64 = 86_400;
const DAYS: usize = 31;
const THOUSANDTHS: u64 = 1000;

struct Step {
    upper_count: u32,
    /// In thousandths of a cent
    price: u32,
}

struct Plan {
    fee: u32,
    allowance: u32,
    steps: Vec<Step>,
}

pub fn case(input: &mut Input, out: &mut String) -> Option<()> {
    let (fee, allowance) = (input.u32()?, input.u32()?);
    let count = input.u8()?;
    let mut steps = vec![];
    for _ in 0..count {
        let (upper_count, price) = (input.u32()?, input.u32()?);
        steps.push(Step { upper_count, price });
    }
    let start = input.i64()?;
    let plan = Plan { fee, allowance, steps };
    let answer = cents(&plan, start, input.bytes()?);
    line(out, answer.map(|cents| format!("P {cents}")));
    Some(())
}

fn cents(plan: &Plan, start: i64, records: &[u8]) -> Result<u64, u8> {
    let messages = messages(records)?;
    limits::plan(plan.holds())?;
    limits::plan((0..=LATEST_START).contains(&start))?;
    let mut days = [0; DAYS];
    for message in messages {
        let day = day(message.time(), start);
        limits::in_month(day.is_some())?;
        days[day.unwrap_or(0)] += 1;
    }
    let extras: u64 = days.iter().map(|&count| plan.extras(count)).sum();
    Ok(u64::from(plan.fee) + extras.div_ceil(THOUSANDTHS))
}

/// The day of the month that a time lies in, from 0. Both its ends are whole seconds, which binary64 holds exactly.
fn day(time: f64, start: i64) -> Option<usize> {
    let midnight = |day: usize| (start + DAY_S * day as i64) as f64;
    (0..DAYS).find(|&day| midnight(day) <= time && time < midnight(day + 1))
}

impl Plan {
    fn holds(&self) -> bool {
        let prices = self.steps.iter().all(|step| step.price <= MOST_MONEY);
        (1..=MOST_STEPS).contains(&self.steps.len()) && self.rises() && prices && self.fee <= MOST_MONEY
    }

    /// The upper counts rise; the last one is not read.
    fn rises(&self) -> bool {
        let read = &self.steps[..self.steps.len() - 1];
        read.windows(2).all(|two| two[0].upper_count < two[1].upper_count)
    }

    /// The price of a day's extra message, by its number from 1 on: that of the first step that reaches it, or of the last.
    fn price(&self, number: u64) -> u64 {
        let (last, read) = self.steps.split_last().expect("a plan has a step");
        let step = read.iter().find(|step| number <= step.upper_count.into());
        step.unwrap_or(last).price.into()
    }

    /// What the messages of one day cost over the allowance, in thousandths.
    fn extras(&self, count: u64) -> u64 {
        let extra = count.saturating_sub(self.allowance.into());
        (1..=extra).map(|number| self.price(number)).sum()
    }
}
