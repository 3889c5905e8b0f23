//! Section 1: `run` against row machines without checks, by row visits.

use crate::contracts::{self, Open};
use crate::inputs::{self, Input, Random};
use crate::plain::{self, Machine, PLACES};
use crate::product::{self, MAX_ROWS};
use crate::timing::{fastest, nanoseconds, Plan, Side, Times};
use std::fmt::Display;
use std::iter;

pub fn measure(plan: &Plan) {
    plan.say(
        "\n1. `run` against the row machine by hand without checks: nanoseconds for each row visit\n   \
         No trace decides, so every period computes every row. By hand, in Rust: two buffers of row\n   \
         values; one buffer with old and new bits, and a pass that keeps the new ones; two buffers and\n   \
         the rows decoded into an enum beforehand; every row decoded beforehand into a gate, computed\n   \
         without branches. What is done beforehand isn't timed. Each is compiled four times, its code\n   \
         16 bytes further on each time, and the fastest place counts; the archive's code has one place.\n   \
         The ratio is that of `run` to the machine above it.",
    );
    for input in inputs(plan) {
        measure_input(plan, &input);
    }
}

/// The images that `run` is timed on, with their traces.
pub fn inputs(plan: &Plan) -> Vec<Input> {
    let random = &mut Random::new();
    let lone = inputs::without_decision(product::image_of(&contracts::duty()));
    let periods = periods_for(plan, &lone);
    let mut inputs = vec![Input {
        name: "1 record, S, V1, V2 set to a false row".into(),
        trace: inputs::any(random, periods),
        image: lone,
    }];
    for contract in [
        contracts::repeated_duty(),
        contracts::repaired_duty(),
        contracts::duty_and_ban(),
        contracts::repairs(),
        contracts::long_expression(),
        contracts::longest_deadlines(),
    ] {
        inputs.push(compiled(plan, random, &contract));
    }
    for rows in [700, MAX_ROWS] {
        let mixed = inputs::mixed_image(random, rows);
        let periods = periods_for(plan, &mixed);
        inputs.push(Input {
            name: "mixed rows by hand".into(),
            trace: inputs::any(random, periods),
            image: mixed,
        });
    }
    inputs
}

fn compiled(plan: &Plan, random: &mut Random, contract: &Open) -> Input {
    let image = product::image_of(&contract.bytes);
    let periods = periods_for(plan, &image);
    Input {
        name: format!("{} records, {}", contract.records, contract.name),
        trace: inputs::open(random, &contract.clause(), contract.kept, periods),
        image,
    }
}

/// As many periods as make some milliseconds of row visits.
fn periods_for(plan: &Plan, image: &[u8]) -> usize {
    plan.size(2_500_000 / product::rows_of(image), 25)
}

fn measure_input(plan: &Plan, input: &Input) {
    // `run` lies in one place, but is timed as often as the machines that lie in several.
    let mut states = [(); PLACES].map(|()| product::begin(&input.image));
    let mut machines = plain::machines(&input.image);
    let mut sides: Vec<Side> = Vec::new();
    for (state, machines) in states.iter_mut().zip(&mut machines) {
        sides.push(Box::new(|| time_run(input, state)));
        for machine in machines {
            sides.push(Box::new(|| time_machine(machine.as_mut(), &input.trace)));
        }
    }
    let times = plan.measure(&mut sides);
    drop(sides);
    for machine in machines.iter().flatten() {
        assert!(
            machine.state() == states[0],
            "{}: {} ends otherwise than run",
            input.name,
            machine.name()
        );
    }
    print(plan, input, &machines[0], &fastest(&times, PLACES));
}

fn time_run(input: &Input, state: &mut [u8]) -> f64 {
    state.fill(0);
    nanoseconds(|| {
        let answer = product::run(&input.image, state, &input.trace);
        assert_eq!(answer.verdict, 0, "{}: no longer open", input.name);
    })
}

fn time_machine(machine: &mut dyn Machine, trace: &[u8]) -> f64 {
    machine.begin();
    nanoseconds(|| machine.run(trace))
}

/// The times are those of `run`, then those of each machine.
fn print(plan: &Plan, input: &Input, machines: &[Box<dyn Machine>], times: &[&Times]) {
    let rows = product::rows_of(&input.image);
    let periods = input.trace.len() / product::PERIOD;
    let names = machines.iter().map(|machine| machine.name());
    let each = times.iter().map(|times| times.per(rows * periods));
    let ratios = times[1..].iter().map(|machine| times[0].ratio(machine));
    plan.say(&format!(
        "\n   {}: {rows} rows, {periods} periods",
        input.name
    ));
    line(plan, "", iter::once("run").chain(names));
    line(plan, "ns", each);
    line(plan, "ratio", iter::once(String::new()).chain(ratios));
}

fn line(plan: &Plan, name: &str, cells: impl Iterator<Item = impl Display>) {
    let cells: String = cells.map(|cell| format!("{cell:>15}")).collect();
    plan.say(&format!("   {name:8}{cells}"));
}
