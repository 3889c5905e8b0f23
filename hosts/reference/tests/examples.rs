//! Document 01's worked examples, its example of `watch`, and the errors of "What students hand
//! in", each on the definition and on the monitor.

mod common;

use common::*;
use reference::definition::{reading, Reading};
use reference::watch::watch;
use reference::Monitor;

#[test]
fn duty_ban_and_power() {
    decides(&duty(1, A), "", OPEN);
    decides(&duty(1, A), "a/a", satisfied(1));
    decides(&duty(1, A), "-/a", violated(1, 1));
    decides(&duty(1, A), "-/-", violated(1, 1));
    decides(&duty(1, A), "a/-", violated(1, 2));
    decides(&duty(2, A), "a/-", violated(1, 2));
    decides(&duty(2, A), "-/a", violated(1, 1));
    decides(&power(1, A), "a/-", violated(1, 2));
    decides(&power(1, A), "-/a", satisfied(1));
    decides(&power(1, A), "a/a", satisfied(1));
    decides(&power(2, A), "-/a", violated(1, 1));
    decides(&ban(1, A), "a/a", violated(1, 1));
    decides(&ban(2, A), "a/a", violated(1, 2));
    decides(&ban(1, A), "a/-", satisfied(1));
}

#[test]
fn operators() {
    decides(&both(power(1, A), duty(1, B)), "a/-", violated(1, 3));
    let right = then(power(1, B), duty(2, B));
    decides(&both(duty(1, A), right), "-/a, -/-", violated(1, 1));
    decides(&repair(duty(1, A), duty(1, B)), "-/-, b/b", satisfied(2));
    decides(&repeat(duty(1, A)), "a/a", OPEN);
    decides(&when(tries(1, B), duty(2, A)), "-/-", satisfied(1));
    let until_b = until(repeat(duty(1, A)), seq(star(any()), tries(1, B)));
    decides(&until_b, "a/a, ab/a", satisfied(2));
    decides(&until_b, "a/a, b/a", violated(2, 1));
}

#[test]
fn operators_beyond_the_worked_examples() {
    decides(&both(duty(1, A), then(duty(1, A), duty(1, B))), "a/a", OPEN);
    decides(
        &both(duty(1, A), then(duty(1, A), duty(1, B))),
        "a/a, b/b",
        satisfied(2),
    );
    decides(
        &both(duty(1, A), then(duty(1, A), duty(1, B))),
        "a/a, b/-",
        violated(2, 2),
    );
    decides(&then(duty(1, A), duty(2, B)), "-/a, -/b", violated(1, 1));
    decides(&repair(duty(1, A), duty(2, B)), "a/a", satisfied(1));
    decides(&repair(duty(1, A), duty(2, B)), "-/-, b/-", violated(2, 2));
    decides(&repeat(duty(1, A)), "a/a, a/a, a/-, -/-", violated(3, 2));
    decides(&when(tries(1, B), duty(2, A)), "b/-, a/-", violated(2, 2));
    let until_b = until(repeat(duty(1, A)), tries(1, B));
    decides(&until_b, "a/a, ab/a", satisfied(2));
    decides(&until_b, "a/a, a/-, ab/a", violated(2, 2));
}

#[test]
fn expressions() {
    let list = periods("a/-, -/-, b/-");
    assert_eq!(
        reading(&seq(star(any()), tries(1, B)), &list),
        Reading::Accepted(3)
    );
    assert_eq!(
        reading(&seq(tries(1, A), tries(1, B)), &list),
        Reading::Rejected(2)
    );
    assert_eq!(
        reading(&or(tries(1, B), seq(any(), any())), &list),
        Reading::Accepted(2)
    );
    assert_eq!(
        reading(&seq(tries(1, A), seq(any(), seq(any(), any()))), &list),
        Reading::Pending
    );
    assert_eq!(reading(&star(tries(1, A)), &list), Reading::Accepted(0));
}

#[test]
fn a_later_breach_adds_no_party() {
    let halves = both(duty(1, A), then(power(1, A), duty(2, B)));
    decides(&halves, "-/a, b/-", violated(1, 1));
    decides(&halves, "-/a, b/-, -/-", violated(1, 1));
    let slow = both(
        then(power(1, A), duty(2, B)),
        then(power(1, A), then(power(1, A), duty(1, B))),
    );
    decides(&slow, "-/-, b/-, -/b", violated(2, 2));
}

#[test]
fn a_half_of_a_violated_both_is_silent_when_begun_again() {
    // The right half would speak in period 2, when the repair's satisfaction begins all anew.
    let halves = both(duty(1, A), then(power(1, B), ban(2, B)));
    let again = repeat(repair(halves, duty(1, A)));
    decides(&again, "-/a, ab/ab", OPEN);
    decides(&again, "-/a, ab/ab, a/a", OPEN);
    decides(&again, "-/a, ab/ab, a/a, b/b", OPEN);
    decides(&again, "-/a, ab/ab, a/a, b/b, a/-", violated(5, 2));
}

#[test]
fn a_clause_under_a_finished_until_is_silent_when_begun_again() {
    let finished = until(then(duty(1, A), duty(1, B)), tries(1, A));
    let again = repeat(finished);
    decides(&again, "a/a, a/a", OPEN);
    decides(&again, "a/a, a/a, a/a", OPEN);
    decides(&again, "a/a, a/a, b/b", violated(3, 1));
}

#[test]
fn the_right_of_then_and_repair_starts_after_the_deciding_period() {
    decides(&then(duty(1, A), ban(1, A)), "a/a", OPEN);
    decides(&then(duty(1, A), ban(1, A)), "a/a, -/-", satisfied(2));
    decides(&repair(ban(1, A), ban(1, A)), "a/a", OPEN);
    decides(&repair(ban(1, A), ban(1, A)), "a/a, a/-", satisfied(2));
}

#[test]
fn a_violation_in_the_period_of_acceptance_wins() {
    decides(&until(duty(1, A), any()), "-/-", violated(1, 1));
    decides(
        &until(then(duty(1, A), duty(1, B)), seq(any(), any())),
        "a/a, b/-",
        violated(2, 2),
    );
    decides(
        &until(then(duty(1, A), duty(1, B)), any()),
        "a/a, b/-",
        satisfied(1),
    );
}

#[test]
fn verdicts_by_period() {
    let mut monitor = Monitor::new(&then(duty(1, A), duty(1, A)));
    let mut seen = Vec::new();
    for period in periods("a/a, a/-, a/a") {
        seen.push((
            monitor.verdict().number(),
            monitor.blame(),
            monitor.decision_period(),
        ));
        monitor.step(period.one, period.two);
    }
    seen.push((
        monitor.verdict().number(),
        monitor.blame(),
        monitor.decision_period(),
    ));
    assert_eq!(seen, [(0, 0, 0), (0, 0, 0), (2, 2, 2), (4, 2, 2)]);
}

/// The contract of the example of `watch`: repeat (repair (duty 1 a, duty 1 b)).
fn example() -> Vec<u8> {
    contract(&[(1, 1, 0), (1, 1, 1), (6, 0, 0), (7, 0, 0)])
}

#[test]
fn the_example_of_watch() {
    let input = [example(), trace("a/a, -/-, b/-, a/a")].concat();
    let bytes = [
        [0x54, 0x43, 0x01, 0x01, 0x00, 0x00],
        [0x54, 0x43, 0x01, 0x01, 0x01, 0x00],
        [0x54, 0x43, 0x06, 0x00, 0x00, 0x00],
        [0x54, 0x43, 0x07, 0x00, 0x00, 0x00],
        [0x54, 0x50, 0x01, 0x00, 0x01, 0x00],
        [0x54, 0x50, 0x00, 0x00, 0x00, 0x00],
        [0x54, 0x50, 0x02, 0x00, 0x00, 0x00],
        [0x54, 0x50, 0x01, 0x00, 0x01, 0x00],
    ];
    assert_eq!(input, bytes.concat());
    let text = "1 open 0\n2 open 0\n3 broken 2\n4 broken-after 2\ndecided 3\n";
    assert_eq!(watch(&input), text);
}

#[test]
fn other_inputs_of_watch() {
    assert_eq!(watch(&example()), "decided 0\n");
    assert_eq!(watch(&[]), "refused 1 0\n");
    assert_eq!(watch(&trace("a/a")), "refused 1 0\n");
    assert_eq!(watch(&trace("a/a")[..5]), "refused 1 0\n");
    let met = [contract(&[(1, 1, 0)]), trace("a/a, -/-")].concat();
    assert_eq!(watch(&met), "1 met 0\n2 met-after 0\ndecided 1\n");
    assert_eq!(watch(&met[..17]), "refused 11 0\n");
    let bad_mark = [met.clone(), vec![0x54, 0x43, 1, 1, 0, 0]].concat();
    assert_eq!(watch(&bad_mark), "refused 11 2\n");
    // A period's mark that isn't at a multiple of six starts no trace.
    let unaligned = [vec![0x54, 0x43, 1, 0x54, 0x50, 0], vec![0; 5]].concat();
    assert_eq!(watch(&unaligned), "refused 1 0\n");
    assert_eq!(watch(&[unaligned, vec![0]].concat()), "refused 4 0\n");
    let kind_eleven = [contract(&[(11, 0, 0)]), trace("a/a")].concat();
    assert_eq!(watch(&kind_eleven), "refused 3 0\n");
}

#[test]
fn the_longest_input_of_watch() {
    let mut input = example();
    while input.len() < 65520 {
        input.extend(trace("a/a"));
    }
    let text = watch(&input);
    assert!(text.ends_with("\n10916 open 0\ndecided 0\n"));
    input.push(0x54);
    assert_eq!(watch(&input), "refused 13 0\n");
}
