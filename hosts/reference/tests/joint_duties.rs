//! Duties that both parties own, alone and under every operator, on the definition and on the
//! monitor.

mod common;

use common::*;
use reference::contract::read;
use reference::definition::decision;
use reference::watch::watch;

/// The ways in which the parties may try action a.
const ATTEMPTS: [&str; 4] = ["-/-", "a/-", "-/a", "a/a"];

#[test]
fn blame_on_each_party_that_does_not_try() {
    decides(&joint_duty(A), "", OPEN);
    decides(&joint_duty(A), "a/a", satisfied(1));
    decides(&joint_duty(A), "-/a", violated(1, 1));
    decides(&joint_duty(A), "a/-", violated(1, 2));
    decides(&joint_duty(A), "-/-", violated(1, 3));
}

#[test]
fn decided_at_period_1() {
    let later = [
        ("a/a", satisfied(1)),
        ("-/a", violated(1, 1)),
        ("a/-", violated(1, 2)),
        ("-/-", violated(1, 3)),
    ];
    for (first, expected) in later {
        for second in ATTEMPTS {
            decides(&joint_duty(A), &format!("{first}, {second}"), expected);
        }
    }
}

#[test]
fn another_action_plays_no_part() {
    decides(&joint_duty(A), "b/b", violated(1, 3));
    decides(&joint_duty(A), "ab/b", violated(1, 2));
    decides(&joint_duty(A), "b/ab", violated(1, 1));
    decides(&joint_duty(B), "b/ab", satisfied(1));
    decides(&joint_duty(15), "p/p", satisfied(1));
    decides(&joint_duty(15), "abc/p", violated(1, 1));
}

#[test]
fn a_plain_duty_differs_where_neither_party_tries() {
    for owner in [1, 2] {
        for period in ["a/-", "-/a", "a/a"] {
            let plain = decision(&duty(owner, A), &periods(period));
            decides(&joint_duty(A), period, plain);
        }
    }
    decides(&duty(1, A), "-/-", violated(1, 1));
    decides(&duty(2, A), "-/-", violated(1, 2));
    decides(&joint_duty(A), "-/-", violated(1, 3));
}

#[test]
fn plain_duties_of_each_party_under_both_are_a_joint_duty() {
    let halves = both(duty(1, A), duty(2, A));
    for period in ATTEMPTS {
        let joint = decision(&joint_duty(A), &periods(period));
        assert_eq!(joint.period(), 1);
        decides(&halves, period, joint);
    }
}

#[test]
fn under_both() {
    // Blames of one period are united.
    let with_duty = both(joint_duty(A), duty(1, B));
    decides(&with_duty, "ab/ab", satisfied(1));
    decides(&with_duty, "b/b", violated(1, 3));
    decides(&with_duty, "ab/b", violated(1, 2));
    decides(&with_duty, "a/a", violated(1, 1));
    decides(&with_duty, "ab/-", violated(1, 2));
    decides(&with_duty, "a/-", violated(1, 3));
    decides(&with_duty, "-/-", violated(1, 3));
    let two = both(joint_duty(A), joint_duty(B));
    decides(&two, "a/b", violated(1, 3));
    decides(&two, "ab/b", violated(1, 2));
    decides(&two, "b/ab", violated(1, 1));
    decides(&two, "ab/-", violated(1, 2));
    decides(&two, "-/ab", violated(1, 1));
    decides(&two, "ab/ab", satisfied(1));
    let with_ban = both(ban(1, B), joint_duty(A));
    decides(&with_ban, "ab/b", violated(1, 3));
    decides(&with_ban, "b/ab", violated(1, 1));
    // A later breach adds no party.
    let slow = both(joint_duty(A), then(power(1, A), joint_duty(B)));
    decides(&slow, "-/a, -/-", violated(1, 1));
    decides(&slow, "a/a", OPEN);
    decides(&slow, "a/a, -/-", violated(2, 3));
    decides(&slow, "a/a, b/-", violated(2, 2));
    decides(&slow, "a/a, b/b", satisfied(2));
}

#[test]
fn under_then() {
    let left = then(joint_duty(A), duty(1, B));
    decides(&left, "-/-, b/b", violated(1, 3));
    decides(&left, "b/ab, b/b", violated(1, 1));
    decides(&left, "ab/ab", OPEN);
    decides(&left, "ab/ab, b/b", satisfied(2));
    decides(&left, "ab/ab, b/-", violated(2, 2));
    let right = then(duty(1, A), joint_duty(B));
    decides(&right, "ab/ab", OPEN);
    decides(&right, "ab/ab, b/b", satisfied(2));
    decides(&right, "ab/ab, -/-", violated(2, 3));
    decides(&right, "ab/ab, a/b", violated(2, 1));
    decides(&right, "-/-, -/-", violated(1, 1));
}

#[test]
fn under_repair() {
    // The blame of the right alone counts.
    let left = repair(joint_duty(A), duty(1, B));
    decides(&left, "a/a", satisfied(1));
    for first in ["-/-", "ab/b", "b/ab"] {
        decides(&left, first, OPEN);
        decides(&left, &format!("{first}, b/b"), satisfied(2));
        decides(&left, &format!("{first}, b/-"), violated(2, 2));
        decides(&left, &format!("{first}, -/-"), violated(2, 1));
    }
    let right = repair(duty(1, A), joint_duty(B));
    decides(&right, "a/a", satisfied(1));
    decides(&right, "b/b", OPEN);
    decides(&right, "b/b, b/b", satisfied(2));
    decides(&right, "b/b, -/-", violated(2, 3));
    decides(&right, "b/b, b/-", violated(2, 2));
    let two = repair(joint_duty(A), joint_duty(B));
    decides(&two, "-/-, b/-", violated(2, 2));
    decides(&two, "a/-, -/b", violated(2, 1));
    decides(&two, "a/-, -/-", violated(2, 3));
}

#[test]
fn under_repeat() {
    let each = repeat(joint_duty(A));
    decides(&each, "a/a, a/a, a/a", OPEN);
    decides(&each, "a/a, -/-", violated(2, 3));
    decides(&each, "a/a, a/a, a/-, -/a", violated(3, 2));
    decides(&each, "-/a, a/-", violated(1, 1));
    let repaired = repeat(repair(joint_duty(A), joint_duty(B)));
    decides(&repaired, "-/-, b/b, a/-, b/b", OPEN);
    decides(&repaired, "-/-, b/b, a/-, -/-", violated(4, 3));
    decides(&repaired, "-/-, b/b, -/-, -/b", violated(4, 1));
}

#[test]
fn under_when() {
    let clause = when(tries(1, B), joint_duty(A));
    decides(&clause, "-/-", satisfied(1));
    decides(&clause, "-/-, -/-", satisfied(1));
    decides(&clause, "ab/a", OPEN);
    decides(&clause, "ab/a, a/a", satisfied(2));
    decides(&clause, "ab/a, -/-", violated(2, 3));
    decides(&clause, "ab/a, a/-", violated(2, 2));
    decides(&clause, "ab/a, -/a", violated(2, 1));
}

#[test]
fn under_until() {
    let until_b = until(repeat(joint_duty(A)), seq(star(any()), tries(1, B)));
    decides(&until_b, "a/a", OPEN);
    decides(&until_b, "a/a, ab/a", satisfied(2));
    decides(&until_b, "a/a, ab/a, -/-", satisfied(2));
    decides(&until_b, "a/a, -/-, ab/a", violated(2, 3));
    // A violation in the period of acceptance wins.
    decides(&until_b, "a/a, b/-", violated(2, 3));
    decides(&until_b, "a/a, b/a", violated(2, 1));
    decides(&until_b, "a/a, ab/-", violated(2, 2));
    decides(&until(joint_duty(A), any()), "-/-", violated(1, 3));
    // Acceptance before it, in period 1 and in period 2.
    let before = until(then(duty(1, A), joint_duty(B)), any());
    decides(&before, "a/a, -/-", satisfied(1));
    let later = until(repeat(joint_duty(A)), tries(1, B));
    decides(&later, "a/a, ab/a, -/-", satisfied(2));
    decides(&later, "a/a, a/a, -/-", violated(3, 3));
}

#[test]
fn a_joint_duty_of_a_violated_both_is_silent_when_begun_again() {
    // It would be violated in period 2, when the repair's satisfaction begins all anew.
    let halves = both(duty(1, A), then(power(1, B), joint_duty(B)));
    let again = repeat(repair(halves, duty(1, A)));
    decides(&again, "-/a, a/a", OPEN);
    decides(&again, "-/a, a/a, a/a", OPEN);
    decides(&again, "-/a, a/a, a/a, b/b, a/a", OPEN);
    // In period 4 it is violated, and the repair's blame alone counts.
    decides(&again, "-/a, a/a, a/a, -/-", OPEN);
    decides(&again, "-/a, a/a, a/a, -/-, a/-", violated(5, 2));
}

#[test]
fn a_joint_duty_under_a_finished_until_is_silent_when_begun_again() {
    let again = repeat(until(then(duty(1, A), joint_duty(B)), tries(1, A)));
    decides(&again, "a/a, a/a, a/a", OPEN);
    decides(&again, "a/a, a/a, b/b", violated(3, 1));
}

#[test]
fn beside_deadlines() {
    let halves = both(deadline(1, A, 2), then(joint_duty(B), joint_duty(B)));
    decides(&halves, "b/b", OPEN);
    decides(&halves, "b/b, ab/ab", satisfied(2));
    decides(&halves, "b/b, b/b", violated(2, 1));
    decides(&halves, "b/b, b/-", violated(2, 3));
    decides(&halves, "b/b, a/a", violated(2, 3));
    decides(&halves, "a/-, -/-", violated(1, 3));
    // A missed deadline has the blame of a plain duty.
    decides(&deadline(1, A, 1), "-/-", violated(1, 1));
    decides(&deadline(2, A, 1), "-/-", violated(1, 2));
}

#[test]
fn contracts_with_joint_duties() {
    let records = [(1, 3, A), (1, 3, 15), (6, 0, 0), (1, 2, B), (5, 0, 0)];
    let clause = read(&contract(&records)).expect("the contract is taken");
    let repaired = repair(joint_duty(A), joint_duty(15));
    assert_eq!(clause, then(repaired, duty(2, B)));
}

#[test]
fn what_watch_prints() {
    let prints = |text: &str, expected: &str| {
        let input = [contract(&[(1, 3, A)]), trace(text)].concat();
        assert_eq!(watch(&input), expected);
    };
    prints("", "decided 0\n");
    prints("a/a, -/-", "1 met 0\n2 met-after 0\ndecided 1\n");
    prints("-/a, a/a", "1 broken 1\n2 broken-after 1\ndecided 1\n");
    prints("a/-, -/-", "1 broken 2\n2 broken-after 2\ndecided 1\n");
    prints("-/-, a/a", "1 broken 3\n2 broken-after 3\ndecided 1\n");
    let of_party_four = [contract(&[(1, 4, A)]), trace("a/a")].concat();
    assert_eq!(watch(&of_party_four), "refused 4 0\n");
    let joint_ban = [contract(&[(1, 3, A), (2, 3, A)]), trace("a/a")].concat();
    assert_eq!(watch(&joint_ban), "refused 4 1\n");
}
