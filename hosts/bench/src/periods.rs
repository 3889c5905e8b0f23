//! Section 5: run against the number of periods.

use crate::contracts;
use crate::inputs::{self, Random};
use crate::product::{self, PERIOD};
use crate::steps::by_steps;
use crate::timing::{exponent, nanoseconds, number, Plan, Side};
use std::array;

const LENGTHS: [usize; 7] = [1_000, 3_000, 10_000, 30_000, 100_000, 300_000, 1_000_000];

pub fn measure(plan: &Plan) {
    plan.say(
        "\n5. run against the trace's length: nanoseconds for each period\n   \
         Growth is the least-squares slope of the logarithm of a run's time against that of its\n   \
         periods.\n",
    );
    let heads = LENGTHS.map(|periods| plan.size(periods, periods / 1_000).to_string());
    line(plan, "periods", heads, "growth");
    let random = &mut Random::new();
    let most = plan.size(1_000_000, 1_000);
    let contract = contracts::repaired_duty();
    let image = product::image_of(&contract.bytes);
    let open = inputs::open(random, &contract.clause(), contract.kept, most);
    measure_trace(plan, "stays open", &image, &open);
    let decided = inputs::violated(random, Vec::new(), most);
    measure_trace(plan, "decided at 2", &image, &decided);
}

fn measure_trace(plan: &Plan, name: &str, image: &[u8], trace: &[u8]) {
    let periods = LENGTHS.map(|periods| plan.size(periods, periods / 1_000));
    let traces = periods.map(|periods| &trace[..PERIOD * periods]);
    for trace in traces {
        check(image, trace);
    }
    let times = times(plan, image, traces);
    let points = array::from_fn::<_, { LENGTHS.len() }, _>(|k| (periods[k] as f64, times[k]));
    let each = points.map(|(periods, time)| number(time / periods));
    line(plan, name, each, &format!("{:.3}", exponent(&points)));
}

/// The best time for each trace in nanoseconds. The traces take turns.
fn times(plan: &Plan, image: &[u8], traces: [&[u8]; LENGTHS.len()]) -> [f64; LENGTHS.len()] {
    let runs = LENGTHS.map(|periods| plan.size((100_000 / periods).max(1), 1));
    let mut sides: Vec<Side> = Vec::new();
    for (trace, runs) in traces.into_iter().zip(runs) {
        let mut state = product::begin(image);
        sides.push(Box::new(move || {
            nanoseconds(|| {
                for _ in 0..runs {
                    state.fill(0);
                    product::run(image, &mut state, trace);
                }
            })
        }));
    }
    let times = plan.measure(&mut sides);
    array::from_fn(|k| times[k].best() / runs[k] as f64)
}

/// One run ends as the steps do.
fn check(image: &[u8], trace: &[u8]) {
    let (mut ran, mut stepped) = (product::begin(image), product::begin(image));
    let answer = product::run(image, &mut ran, trace);
    assert_eq!(answer, by_steps(image, &mut stepped, trace));
    assert!(ran == stepped, "the steps leave another state");
}

fn line(plan: &Plan, name: &str, values: [String; LENGTHS.len()], growth: &str) {
    let cells = values.map(|value| format!("{value:>9}")).concat();
    plan.say(&format!("   {name:<14}{cells}{growth:>9}"));
}
