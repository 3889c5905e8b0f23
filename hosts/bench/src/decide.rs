//! Section 7: `decide` against `run`.

use crate::contracts::{self, Open};
use crate::inputs::{self, Input, Random};
use crate::product::{self, Decided, MAX_ROWS, PERIOD};
use crate::steps;
use crate::timing::{each_of, Plan, Side, Times};
use crate::tree::decided;

const LENGTHS: [usize; 5] = [100, 1_000, 10_000, 100_000, 1_000_000];
/// The period that decides a trace of any of these lengths.
const DECISION: usize = 10;

pub fn measure(plan: &Plan) {
    plan.say(
        "\n7. `decide` against `run` on a begun state: nanoseconds of a call\n   \
         Each trace is decided at 10. The first ratio is that of `run` to `decide`, the second that of\n   \
         `decide` to the same call on the first 10 records alone.",
    );
    for contract in [contracts::repaired_duty(), contracts::repairs()] {
        measure_lengths(plan, &contract);
    }
    plan.say(
        "\n   Where no record is left unread: nanoseconds for each period\n   \
         A trace that is decided at 1 has one record. `decide` has a state of its own, of the longest\n   \
         length, and clears all of it at each call. The ratio is that of `decide` to `run`.\n",
    );
    read_line(plan, ["image", "rows", "decided", "run", "decide", "ratio"]);
    for input in steps::inputs(plan).iter().chain(&one_record_inputs()) {
        measure_read(plan, input);
    }
}

fn measure_lengths(plan: &Plan, contract: &Open) {
    let image = product::image_of(&contract.bytes);
    let lengths = LENGTHS.map(|records| plan.size(records, LENGTHS[0]));
    let open = inputs::narrow(&[contract.kept; DECISION - 2]);
    let trace = inputs::violated(&mut Random::new(), open, lengths[lengths.len() - 1]);
    let rows = product::rows_of(&image);
    plan.say(&format!("\n   {}: {rows} rows", contract.name));
    length_line(
        plan,
        ["records", "run", "decide", "ratio", "10 alone", "ratio"],
    );
    for records in lengths {
        let traces = [records, DECISION].map(|records| &trace[..PERIOD * records]);
        let (reply, times) = times(plan, &contract.name, &image, &traces);
        assert_eq!(reply.decision as usize, DECISION, "{}", contract.name);
        length_line(
            plan,
            [
                &records.to_string(),
                &times[0].per(1),
                &times[1].per(1),
                &times[0].ratio(&times[1]),
                &times[2].per(1),
                &times[1].ratio(&times[2]),
            ],
        );
    }
}

/// The smallest image, that of a lone duty and one of the most rows, with a record that decides.
fn one_record_inputs() -> [Input; 3] {
    let random = &mut Random::new();
    let mixed = inputs::mixed_image(random, MAX_ROWS);
    [
        ("one row by hand", inputs::smallest_image()),
        ("1 record, duty", product::image_of(&contracts::duty())),
        ("mixed rows by hand", inputs::decided_at_once(mixed)),
    ]
    .map(|(name, image)| Input {
        name: name.into(),
        image,
        trace: inputs::any(random, 1),
    })
}

fn measure_read(plan: &Plan, input: &Input) {
    let Input { name, image, trace } = input;
    let (reply, times) = times(plan, name, image, &[trace]);
    let periods = trace.len() / PERIOD;
    assert_eq!(reply.records as usize, periods, "{name}");
    read_line(
        plan,
        [
            name,
            &product::rows_of(image).to_string(),
            &decided(reply.decision),
            &times[0].per(periods),
            &times[1].per(periods),
            &times[1].ratio(&times[0]),
        ],
    );
}

/// What `decide` gives, the same on each trace, and the times of a call: of `run` over the first
/// trace, then of `decide` on each.
fn times(plan: &Plan, name: &str, image: &[u8], traces: &[&[u8]]) -> (Decided, Vec<Times>) {
    let trace = traces[0];
    let mut ran = product::begin(image);
    let mut replies = vec![Decided::default(); traces.len()];
    let read = product::decide(image, trace).records as usize;
    // As many calls as make some milliseconds of row visits and records.
    let calls = |records: usize| {
        let work = product::rows_of(image) * read + records;
        plan.size((1_000_000 / work).clamp(1, 10_000), 1)
    };
    let (runs, decides) = (calls(trace.len() / PERIOD), calls(read));
    let mut sides: Vec<Side> = vec![Box::new(|| {
        each_of(runs, || {
            ran.fill(0);
            product::run(image, &mut ran, trace);
        })
    })];
    for (trace, reply) in traces.iter().zip(&mut replies) {
        sides.push(Box::new(move || {
            each_of(decides, || *reply = product::decide(image, trace))
        }));
    }
    let times = plan.measure(&mut sides);
    drop(sides);
    let expected = product::decided_by(&ran);
    for (trace, reply) in traces.iter().zip(replies) {
        assert_eq!(reply, expected, "{name}: decide gives otherwise");
        check_run(name, image, trace, expected);
    }
    (expected, times)
}

/// A run over the trace leaves what is expected of `decide`.
fn check_run(name: &str, image: &[u8], trace: &[u8], expected: Decided) {
    let mut state = product::begin(image);
    product::run(image, &mut state, trace);
    let left = product::decided_by(&state);
    assert_eq!(left, expected, "{name}: run leaves another decision");
}

fn length_line(plan: &Plan, [records, run, decide, ratio, alone, same]: [&str; 6]) {
    plan.say(&format!(
        "   {records:>7}{run:>20}{decide:>15}{ratio:>20}{alone:>15}{same:>13}"
    ));
}

fn read_line(plan: &Plan, [name, rows, decided, run, decide, ratio]: [&str; 6]) {
    plan.say(&format!(
        "   {name:<32}{rows:>6}{decided:>9}{run:>17}{decide:>17}{ratio:>13}"
    ));
}
