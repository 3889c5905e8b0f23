//! Deadlines, alone and under every operator, on the definition and on the monitor.

mod common;

use common::*;
use reference::contract::read;
use reference::watch::watch;

/// The periods in which action a fails.
const FAILURES: [&str; 3] = ["-/-", "a/-", "-/a"];

#[test]
fn met_in_one_of_its_periods() {
    let within_three = deadline(1, A, 3);
    decides(&within_three, "", OPEN);
    decides(&within_three, "a/a", satisfied(1));
    decides(&within_three, "a/a, -/-, -/-, -/-", satisfied(1));
    for first in FAILURES {
        decides(&within_three, first, OPEN);
        decides(&within_three, &format!("{first}, a/a"), satisfied(2));
        for second in FAILURES {
            let two = format!("{first}, {second}");
            decides(&within_three, &two, OPEN);
            decides(&within_three, &format!("{two}, a/a"), satisfied(3));
            decides(&within_three, &format!("{two}, a/a, a/-"), satisfied(3));
        }
    }
}

#[test]
fn missed_with_the_blame_of_its_last_period() {
    for first in FAILURES {
        for second in FAILURES {
            for (third, one, two) in [("-/-", 1, 2), ("a/-", 2, 2), ("-/a", 1, 1)] {
                let three = format!("{first}, {second}, {third}");
                decides(&deadline(1, A, 3), &three, violated(3, one));
                decides(&deadline(2, A, 3), &three, violated(3, two));
                let late = format!("{three}, a/a");
                decides(&deadline(1, A, 3), &late, violated(3, one));
                decides(&deadline(2, A, 3), &late, violated(3, two));
            }
        }
    }
}

#[test]
fn another_action_plays_no_part() {
    decides(&deadline(1, A, 2), "b/b, b/b", violated(2, 1));
    decides(&deadline(1, A, 2), "b/b, ab/b", violated(2, 2));
    decides(&deadline(1, B, 2), "a/a, ab/b", satisfied(2));
}

#[test]
fn a_window_of_one_period_is_a_plain_duty() {
    for party in [1, 2] {
        for period in ["-/-", "a/-", "-/a", "a/a"] {
            let plain = reference::definition::decision(&duty(party, A), &periods(period));
            assert_eq!(plain.period(), 1);
            decides(&deadline(party, A, 1), period, plain);
        }
    }
    decides(&deadline(1, A, 1), "-/-", violated(1, 1));
    decides(&deadline(1, A, 1), "a/-", violated(1, 2));
    decides(&deadline(1, A, 1), "a/a", satisfied(1));
}

#[test]
fn windows_of_every_length() {
    for window in 1..=15 {
        let clause = deadline(1, A, window);
        let window = usize::from(window);
        let before = vec!["a/-"; window - 1].join(", ");
        let with = |last: &str| format!("{before}, {last}");
        decides(&clause, &before, OPEN);
        decides(&clause, &with("a/a"), satisfied(window));
        decides(&clause, &with("-/-"), violated(window, 1));
        decides(&clause, &with("a/-"), violated(window, 2));
        decides(&clause, &with("-/a, a/a"), violated(window, 1));
    }
}

#[test]
fn under_repeat() {
    let each = repeat(deadline(1, A, 3));
    decides(&each, "a/a, a/a, a/a", OPEN);
    // Every success begins a whole window.
    decides(&each, "-/-, a/a, -/-, -/-", OPEN);
    decides(&each, "-/-, a/a, -/-, -/-, a/a", OPEN);
    decides(&each, "-/-, a/a, -/-, -/-, a/-", violated(5, 2));
    decides(&each, "-/-, -/-, a/a, -/-, -/-", OPEN);
    decides(&each, "-/-, -/-, a/a, -/-, -/-, -/a", violated(6, 1));
}

#[test]
fn under_then() {
    let left = then(deadline(1, A, 3), duty(1, B));
    decides(&left, "-/-, ab/ab", OPEN);
    decides(&left, "-/-, a/a, b/b", satisfied(3));
    decides(&left, "-/-, a/a, -/-", violated(3, 1));
    decides(&left, "b/b, b/b, b/b", violated(3, 1));
    let right = then(duty(1, A), deadline(1, B, 2));
    decides(&right, "ab/ab, -/-", OPEN);
    decides(&right, "ab/ab, -/-, b/b", satisfied(3));
    decides(&right, "ab/ab, -/-, b/-", violated(3, 2));
}

#[test]
fn under_repair() {
    // The repair reads from the period after the last of the window.
    let left = repair(deadline(1, A, 3), duty(2, B));
    decides(&left, "-/-, a/-, ab/b", OPEN);
    decides(&left, "-/-, a/-, ab/b, b/b", satisfied(4));
    decides(&left, "-/-, a/-, -/-, b/-", violated(4, 2));
    decides(&left, "-/-, a/-, a/-, -/b", violated(4, 1));
    decides(&left, "-/-, a/-, a/a", satisfied(3));
    let right = repair(duty(1, A), deadline(2, B, 2));
    decides(&right, "b/b, b/-", OPEN);
    decides(&right, "b/b, b/-, b/b", satisfied(3));
    decides(&right, "b/b, b/-, -/b", violated(3, 1));
    decides(&right, "a/a, -/-, -/-", satisfied(1));
}

#[test]
fn under_when() {
    let clause = when(tries(1, B), deadline(2, A, 2));
    decides(&clause, "-/-, -/-, -/-", satisfied(1));
    decides(&clause, "ab/a, -/-", OPEN);
    decides(&clause, "ab/a, -/-, a/a", satisfied(3));
    decides(&clause, "ab/a, -/a, -/-", violated(3, 2));
}

#[test]
fn under_both() {
    let with_duty = both(deadline(1, A, 3), duty(2, B));
    decides(&with_duty, "b/b", OPEN);
    decides(&with_duty, "b/b, -/-, a/a", satisfied(3));
    decides(&with_duty, "b/b, -/-, a/-", violated(3, 2));
    decides(&with_duty, "ab/ab", satisfied(1));
    // A later miss adds no party.
    decides(&with_duty, "-/-", violated(1, 2));
    decides(&with_duty, "-/-, -/-, -/-", violated(1, 2));
    let two = both(deadline(1, A, 2), deadline(2, B, 3));
    decides(&two, "-/-, a/a", OPEN);
    decides(&two, "-/-, a/a, b/b", satisfied(3));
    decides(&two, "-/-, a/a, b/-", violated(3, 2));
    decides(&two, "-/-, -/-, -/-", violated(2, 1));
    let same = both(deadline(1, A, 3), deadline(2, B, 3));
    decides(&same, "-/-, a/-, -/-", violated(3, 3));
    decides(&same, "-/-, a/-, -/b", violated(3, 1));
    let slow = both(deadline(1, A, 2), then(power(1, B), duty(2, B)));
    decides(&slow, "-/-, -/-", violated(2, 3));
}

#[test]
fn a_deadline_of_a_violated_both_is_silent_when_begun_again() {
    // The first deadline would be missed in period 3, when the repair's satisfaction begins all
    // anew; then the duty of party 2 would be violated in period 4.
    let halves = both(deadline(1, A, 3), duty(1, B));
    let again = repeat(repair(halves, duty(2, B)));
    decides(&again, "-/-, b/b, b/b", OPEN);
    decides(&again, "-/-, b/b, b/b, -/-", OPEN);
    decides(&again, "-/-, b/b, b/b, -/-, a/a", OPEN);
    decides(&again, "-/-, b/b, b/b, -/-, a/a, b/b, a/a", OPEN);
    decides(&again, "-/-, b/b, b/b, -/-, a/-", OPEN);
    decides(&again, "-/-, b/b, b/b, -/-, a/-, b/-", violated(6, 2));
    // Met in period 2, the first deadline would stand for the one that begins in period 3.
    decides(&again, "-/-, ab/ab, b/b", OPEN);
    decides(&again, "-/-, ab/ab, b/b, -/-, -/-, -/-", violated(6, 2));
}

#[test]
fn under_until() {
    let three = || seq(any(), seq(any(), any()));
    // Acceptance in the last period of the window: the deadline's own decision.
    let last = until(deadline(1, A, 3), three());
    decides(&last, "-/-, -/-", OPEN);
    decides(&last, "-/-, -/-, -/-", violated(3, 1));
    decides(&last, "-/-, -/-, a/-", violated(3, 2));
    decides(&last, "-/-, -/-, a/a", satisfied(3));
    decides(&last, "-/-, a/a", satisfied(2));
    // Before it, and after it.
    let before = until(deadline(1, A, 4), three());
    decides(&before, "-/-, -/-, -/-", satisfied(3));
    decides(&before, "-/-, -/-, -/-, -/-", satisfied(3));
    let after = until(deadline(1, A, 2), three());
    decides(&after, "-/-, a/-", violated(2, 2));
    // A stretch that begins in period 2: accepted in the last period of the window, and before it.
    decides(
        &until(deadline(1, A, 2), tries(1, B)),
        "a/-, ab/-",
        violated(2, 2),
    );
    decides(
        &until(deadline(1, A, 3), tries(1, B)),
        "a/-, ab/-, -/-",
        satisfied(2),
    );
}

#[test]
fn a_deadline_under_a_finished_until_is_silent_when_begun_again() {
    let again = repeat(until(deadline(1, A, 3), tries(1, B)));
    decides(&again, "b/-, b/-, b/-, b/-", OPEN);
    // The window that counts is that of periods 2 to 4.
    decides(&again, "b/-, -/-, -/-", OPEN);
    decides(&again, "b/-, -/-, -/-, a/-", violated(4, 2));
    decides(&again, "b/-, -/-, -/-, a/a", OPEN);
}

#[test]
fn contracts_with_deadlines() {
    let bytes = [
        deadline_record(1, A, 3),
        deadline_record(2, B, 15),
        record(6, 0, 0),
        record(7, 0, 0),
    ];
    let clause = read(&bytes.concat()).expect("the contract is taken");
    assert_eq!(
        clause,
        repeat(repair(deadline(1, A, 3), deadline(2, B, 15)))
    );
}

#[test]
fn what_watch_prints() {
    let within_three = deadline_record(1, A, 3);
    let prints = |text: &str, expected: &str| {
        let input = [within_three.as_slice(), &trace(text)].concat();
        assert_eq!(watch(&input), expected);
    };
    prints("", "decided 0\n");
    prints("-/-, a/-", "1 open 0\n2 open 0\ndecided 0\n");
    prints(
        "-/-, a/a, -/-",
        "1 open 0\n2 met 0\n3 met-after 0\ndecided 2\n",
    );
    prints(
        "-/-, a/-, -/a, a/a",
        "1 open 0\n2 open 0\n3 broken 1\n4 broken-after 1\ndecided 3\n",
    );
    assert_eq!(watch(&deadline_record(1, A, 0)), "refused 4 0\n");
    assert_eq!(watch(&deadline_record(1, A, 16)), "refused 4 0\n");
}
