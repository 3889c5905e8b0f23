//! Section 4: compile against the contract's length.

use crate::contracts::{clause, Family, FAMILIES};
use crate::inputs::{self, Random};
use crate::product::{self, LONGEST_IMAGE, PERIOD};
use crate::timing::{exponent, nanoseconds, number, Plan, Side};
use reference::Monitor;
use std::array;

/// The numbers of records that are measured of each family.
pub const LENGTHS: [usize; 7] = [1, 2, 4, 8, 16, 32, 64];
/// Shorter contracts don't count in the exponent of growth.
const LEAST_GROWN: usize = 8;

pub fn measure(plan: &Plan) {
    plan.say(
        "\n4. compile against the contract's length: microseconds of a call, rows of the image\n   \
         Growth is the least-squares slope of the logarithm against that of the records, from 8\n   \
         records on. The windows of the last family add up to 7.5 times its records, so its growth is\n   \
         also that against records plus windows.",
    );
    for family in &FAMILIES {
        measure_family(plan, family);
    }
}

fn measure_family(plan: &Plan, family: &Family) {
    let contracts = LENGTHS.map(|records| family.contract(records));
    for contract in &contracts {
        check(contract);
    }
    let rows = contracts
        .each_ref()
        .map(|contract| product::rows_of(&product::image_of(contract)) as f64);
    let times = times(plan, &contracts);
    let heads = LENGTHS.map(|records| records.to_string());
    plan.say(&format!("\n   {}", family.name));
    line(plan, "records", heads, "growth");
    line(plan, "rows", rows.map(|n| n.to_string()), &growth(rows));
    line(plan, "us", times.map(|n| number(n / 1e3)), &growth(times));
}

/// As many calls on a contract of so many records as make a turn.
pub fn calls(plan: &Plan, records: usize) -> usize {
    plan.size(16_384 / records, 1)
}

/// The best time for each contract in nanoseconds. The contracts take turns.
fn times(plan: &Plan, contracts: &[Vec<u8>; LENGTHS.len()]) -> [f64; LENGTHS.len()] {
    let calls = LENGTHS.map(|records| calls(plan, records));
    let mut sides: Vec<Side> = Vec::new();
    for (contract, calls) in contracts.iter().zip(calls) {
        let mut image = vec![0; LONGEST_IMAGE];
        sides.push(Box::new(move || {
            nanoseconds(|| {
                for _ in 0..calls {
                    product::compile(contract, &mut image);
                }
            })
        }));
    }
    let times = plan.measure(&mut sides);
    array::from_fn(|k| times[k].best() / calls[k] as f64)
}

/// The image says on some trace what the reference's monitor says.
pub fn check(contract: &[u8]) {
    let image = product::image_of(contract);
    let mut state = product::begin(&image);
    let mut monitor = Monitor::new(&clause(contract));
    let answer = inputs::any(&mut Random::new(), 20)
        .chunks_exact(PERIOD)
        .map(|record| {
            inputs::take(&mut monitor, record);
            product::step(&image, &mut state, record)
        })
        .last()
        .expect("there are periods");
    assert_eq!(answer.verdict, monitor.verdict().number());
    assert_eq!(answer.blame, monitor.blame().into());
    assert_eq!(answer.decision as usize, monitor.decision_period());
}

fn growth(values: [f64; LENGTHS.len()]) -> String {
    let points: Vec<(f64, f64)> = LENGTHS
        .iter()
        .zip(values)
        .filter(|(records, _)| **records >= LEAST_GROWN)
        .map(|(records, value)| (*records as f64, value))
        .collect();
    format!("{:.2}", exponent(&points))
}

fn line(plan: &Plan, name: &str, values: [String; LENGTHS.len()], growth: &str) {
    let cells = values.map(|value| format!("{value:>8}")).concat();
    plan.say(&format!("   {name:<10}{cells}{growth:>10}"));
}
