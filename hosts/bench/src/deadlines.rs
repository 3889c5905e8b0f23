//! Section 6: deadlines against their window.

use crate::compile::{self, calls};
use crate::contracts::{self, Open};
use crate::inputs::{self, Random};
use crate::product::{self, LONGEST_IMAGE};
use crate::steps::by_steps;
use crate::timing::{exponent, nanoseconds, Plan, Side, Times};
use monitor::Window;

const WINDOWS: [u8; 4] = [1, 5, 10, 15];

type OfEach<T> = [T; WINDOWS.len()];

pub fn measure(plan: &Plan) {
    plan.say(
        "\n6. deadlines against their window: microseconds of a compile, nanoseconds of a step\n   \
         No trace decides. The ratio is that to the window of 1. Growth is the least-squares slope of the\n   \
         logarithm against that of the records plus the sum of all windows: at most 1 for what is linear\n   \
         in these.",
    );
    measure_contract(plan, "repeated deadline", contracts::repeated_deadline);
    measure_contract(plan, "32 deadlines side by side", contracts::deadlines);
}

fn measure_contract(plan: &Plan, name: &str, contract: fn(Window) -> Open) {
    let contracts = WINDOWS.map(|periods| contract(Window::new(periods).expect("1 to 15")));
    for contract in &contracts {
        compile::check(&contract.bytes);
    }
    let records = contracts[0].records;
    let images = contracts.each_ref().map(|c| product::image_of(&c.bytes));
    let rows = images.each_ref().map(|image| product::rows_of(image));
    let lengths = contracts.each_ref().map(|c| (records + c.windows()) as f64);

    plan.say(&format!("\n   {name}, {records} records"));
    let heads = WINDOWS.map(|periods| periods.to_string());
    line(plan, "window", &heads, "growth");
    let growth = growth(lengths, rows.map(|rows| rows as f64));
    line(plan, "rows", &rows.map(|rows| rows.to_string()), &growth);
    let calls = calls(plan, records);
    let times = compile_times(plan, &contracts, calls);
    lines(plan, "compile", lengths, &times, 1_000 * calls);
    let periods = plan.size(100_000 / records, 30);
    let times = step_times(plan, &contracts, &images, periods);
    lines(plan, "step", lengths, &times, periods);
}

/// The times of so many compiles of each contract. The contracts take turns.
fn compile_times(plan: &Plan, contracts: &OfEach<Open>, calls: usize) -> Vec<Times> {
    let mut sides: Vec<Side> = Vec::new();
    for contract in contracts {
        let mut image = vec![0; LONGEST_IMAGE];
        sides.push(Box::new(move || {
            nanoseconds(|| {
                for _ in 0..calls {
                    product::compile(&contract.bytes, &mut image);
                }
            })
        }));
    }
    plan.measure(&mut sides)
}

/// The times of a step for each of so many periods, which leave the contract open.
fn step_times(
    plan: &Plan,
    contracts: &OfEach<Open>,
    images: &OfEach<Vec<u8>>,
    periods: usize,
) -> Vec<Times> {
    let random = &mut Random::new();
    let mut sides: Vec<Side> = Vec::new();
    for (contract, image) in contracts.iter().zip(images) {
        let trace = inputs::open(random, &contract.clause(), contract.kept, periods);
        let mut state = product::begin(image);
        sides.push(Box::new(move || {
            state.fill(0);
            nanoseconds(|| {
                let answer = by_steps(image, &mut state, &trace);
                assert_eq!(answer.verdict, 0, "{}: no longer open", contract.name);
            })
        }));
    }
    plan.measure(&mut sides)
}

/// The times of each window for one of so many parts, and their ratios to the first one's.
fn lines(plan: &Plan, call: &str, lengths: OfEach<f64>, times: &[Times], parts: usize) {
    let each: Vec<String> = times.iter().map(|times| times.per(parts)).collect();
    let ratios: Vec<String> = times.iter().map(|own| own.ratio(&times[0])).collect();
    let bests = std::array::from_fn(|k| times[k].best());
    line(plan, call, &each, &growth(lengths, bests));
    line(plan, "ratio", &ratios, "");
}

fn growth(lengths: OfEach<f64>, values: OfEach<f64>) -> String {
    let points: Vec<(f64, f64)> = lengths.into_iter().zip(values).collect();
    format!("{:.2}", exponent(&points))
}

fn line(plan: &Plan, name: &str, cells: &[String], growth: &str) {
    let cells: String = cells.iter().map(|cell| format!("{cell:>16}")).collect();
    plan.say(format!("   {name:<8}{cells}{growth:>9}").trim_end());
}
