//! Section 3: a call of `step` for each period, and a wide trace, against one call of `run` over a
//! narrow one.

use crate::contracts;
use crate::inputs::{self, Input, Random};
use crate::product::{self, Answer, MAX_ROWS, PERIOD};
use crate::timing::{nanoseconds, Plan};

pub fn measure(plan: &Plan) {
    let inputs = inputs(plan);
    plan.say(
        "\n3. `step` for each period against one `run`: nanoseconds for each period\n   \
         No trace decides. Step checks image, state and record at each call. The ratio is that of\n   \
         `step` to `run`.\n",
    );
    line(plan, ["image", "rows", "run", "step", "ratio"]);
    for input in &inputs {
        measure_against_run(plan, input, |state| {
            by_steps(&input.image, state, &input.trace)
        });
    }
    plan.say(
        "\n   `run` over wide records against narrow ones with the same attempts: nanoseconds for each period\n   \
         The ratio is that of the wide records to the narrow ones.\n",
    );
    line(plan, ["image", "rows", "narrow", "wide", "ratio"]);
    for input in &inputs {
        let wide = inputs::wide(&input.trace);
        measure_against_run(plan, input, |state| {
            product::run(&input.image, state, &wide)
        });
    }
}

/// The images that `step` and wide records are timed on, with their narrow traces: the smallest
/// first, the largest last.
pub fn inputs(plan: &Plan) -> Vec<Input> {
    let random = &mut Random::new();
    let mut inputs = Vec::new();
    for contract in [
        contracts::repeated_duty(),
        contracts::repaired_duty(),
        contracts::duty_and_ban(),
        contracts::repairs(),
        contracts::long_expression(),
        contracts::longest_deadlines(),
    ] {
        let periods = plan.size(100_000 / contract.records, 30);
        inputs.push(Input {
            name: format!("{} records, {}", contract.records, contract.name),
            image: product::image_of(&contract.bytes),
            trace: inputs::open(random, &contract.clause(), contract.kept, periods),
        });
    }
    inputs.push(Input {
        name: "mixed rows by hand".into(),
        image: inputs::mixed_image(random, MAX_ROWS),
        trace: inputs::any(random, plan.size(1_000, 30)),
    });
    inputs
}

/// Times other work against `run`, each on a state just begun; both have to end alike.
fn measure_against_run(plan: &Plan, input: &Input, other: impl Fn(&mut [u8]) -> Answer) {
    let Input { name, image, trace } = input;
    let (mut ran, mut left) = (product::begin(image), product::begin(image));
    let (mut answer, mut other_answer) = (Answer::default(), Answer::default());
    let times = plan.measure(&mut [
        Box::new(|| {
            ran.fill(0);
            nanoseconds(|| answer = product::run(image, &mut ran, trace))
        }),
        Box::new(|| {
            left.fill(0);
            nanoseconds(|| other_answer = other(&mut left))
        }),
    ]);
    assert_eq!(answer, other_answer, "{name}: another reply than run's");
    assert!(ran == left, "{name}: another state than run's");
    let periods = trace.len() / PERIOD;
    line(
        plan,
        [
            name,
            &product::rows_of(image).to_string(),
            &times[0].per(periods),
            &times[1].per(periods),
            &times[1].ratio(&times[0]),
        ],
    );
}

/// The answer of the last step.
pub fn by_steps(image: &[u8], state: &mut [u8], trace: &[u8]) -> Answer {
    let mut last = Answer::default();
    for record in trace.chunks_exact(PERIOD) {
        last = product::step(image, state, record);
    }
    last
}

fn line(plan: &Plan, [name, rows, run, other, ratio]: [&str; 5]) {
    plan.say(&format!(
        "   {name:<32}{rows:>6}{run:>17}{other:>17}{ratio:>13}"
    ));
}
