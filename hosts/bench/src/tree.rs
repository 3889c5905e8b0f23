//! Section 2: `run` against the reference's tree monitor, by periods.

use crate::contracts::{self, Open};
use crate::inputs::{self, Random};
use crate::product::{self, Answer, PERIOD};
use crate::timing::{nanoseconds, Plan};
use reference::{Clause, Monitor};

pub fn measure(plan: &Plan) {
    plan.say(
        "\n2. `run` against the reference's monitor on the tree of clauses: nanoseconds for each period\n   \
         The tree monitor reads the trace's records too. The ratio is that of `run` to the tree monitor.\n",
    );
    line(
        plan,
        [
            "contract", "records", "rows", "decided", "run", "tree", "ratio",
        ],
    );
    let random = &mut Random::new();
    for contract in [
        contracts::repeated_duty(),
        contracts::repaired_duty(),
        contracts::duty_and_ban(),
        contracts::deep_repeats(),
        contracts::repairs(),
        contracts::whens(),
        contracts::nested(),
        contracts::long_expression(),
        contracts::longest_deadlines(),
    ] {
        let periods = plan.size(100_000 / contract.records, 30);
        let trace = inputs::open(random, &contract.clause(), contract.kept, periods);
        measure_contract(plan, &contract, &trace);
    }
    for contract in [contracts::repaired_duty(), contracts::repairs()] {
        let open = inputs::open(random, &contract.clause(), contract.kept, 10);
        let trace = inputs::violated(random, open, plan.size(1_000_000, 30));
        measure_contract(plan, &contract, &trace);
    }
}

fn measure_contract(plan: &Plan, contract: &Open, trace: &[u8]) {
    let (image, clause) = (product::image_of(&contract.bytes), contract.clause());
    let mut state = product::begin(&image);
    let (mut ours, mut theirs) = (Answer::default(), Answer::default());
    let times = plan.measure(&mut [
        Box::new(|| {
            state.fill(0);
            nanoseconds(|| ours = product::run(&image, &mut state, trace))
        }),
        Box::new(|| nanoseconds(|| theirs = by_tree(&clause, trace))),
    ]);
    assert_eq!(ours, theirs, "{}: the tree ends otherwise", contract.name);
    let periods = trace.len() / PERIOD;
    line(
        plan,
        [
            &contract.name,
            &contract.records.to_string(),
            &product::rows_of(&image).to_string(),
            &decided(ours.decision),
            &times[0].per(periods),
            &times[1].per(periods),
            &times[0].ratio(&times[1]),
        ],
    );
}

fn by_tree(clause: &Clause, trace: &[u8]) -> Answer {
    let mut monitor = Monitor::new(clause);
    for record in trace.chunks_exact(PERIOD) {
        inputs::take(&mut monitor, record);
    }
    Answer {
        verdict: monitor.verdict().number(),
        blame: monitor.blame().into(),
        decision: monitor.decision_period() as u32,
    }
}

/// The decision period in print.
pub fn decided(decision: u32) -> String {
    match decision {
        0 => "never".into(),
        period => format!("at {period}"),
    }
}

fn line(plan: &Plan, [name, records, rows, decided, run, tree, ratio]: [&str; 7]) {
    plan.say(&format!(
        "   {name:<22}{records:>8}{rows:>6}{decided:>9}{run:>15}{tree:>15}{ratio:>13}"
    ));
}
