//! Document 02, "An ending that may begin in any period": the expression of `until`, on the
//! definition and on the monitor, and that of `when`, which is read as before.

mod common;

use common::*;
use reference::definition::{acceptance, decision, reading, Reading};
use reference::watch::watch;
use reference::{Clause, Expression, Monitor, Period};
use std::rc::Rc;

const C: u8 = 2;

/// Undecided as long as both parties try a.
fn each() -> Rc<Clause> {
    repeat(duty(1, A))
}

/// Party 1 tries b in two periods, one after the other.
fn twice() -> Rc<Expression> {
    seq(tries(1, B), tries(1, B))
}

#[test]
fn the_examples_of_document_01() {
    for expression in [seq(star(any()), tries(1, B)), tries(1, B)] {
        let until_b = until(each(), expression);
        decides(&until_b, "a/a, ab/a", satisfied(2));
        decides(&until_b, "a/a, b/a", violated(2, 1));
    }
}

#[test]
fn a_stretch_that_begins_in_period_2() {
    let notice = until(each(), seq(tries(1, B), tries(1, C)));
    decides(&notice, "a/a, ab/a", OPEN);
    decides(&notice, "a/a, ab/a, ac/a", satisfied(3));
    decides(&notice, "a/a, ab/a, ac/a, -/-", satisfied(3));
    // A stretch leaves out no period between its first and its last.
    decides(&notice, "a/a, ab/a, a/a, ac/a", OPEN);
    decides(&notice, "a/a, ac/a, ab/a", OPEN);
}

#[test]
fn a_stretch_that_begins_in_a_later_period() {
    for before in 0..12 {
        let text = format!("{}ab/a, ab/a", "a/a, ".repeat(before));
        decides(&until(each(), twice()), &text, satisfied(before + 2));
        let one = format!("{}ab/a", "a/a, ".repeat(before));
        decides(&until(each(), twice()), &one, OPEN);
        decides(&until(each(), tries(1, B)), &one, satisfied(before + 1));
    }
}

#[test]
fn only_the_later_of_two_stretches_that_overlap() {
    let notice = until(each(), seq(tries(1, B), seq(tries(1, B), tries(1, C))));
    // The stretch from period 1 fails in period 3; that from period 2 goes on.
    decides(&notice, "ab/a, ab/a, ab/a", OPEN);
    decides(&notice, "ab/a, ab/a, ab/a, ac/a", satisfied(4));
    decides(&notice, "ab/a, ab/a, ab/a, ab/a, ac/a", satisfied(5));
    decides(&notice, "ab/a, ab/a, a/a, ac/a", OPEN);
}

#[test]
fn a_later_stretch_that_ends_before_the_first() {
    let long = seq(tries(1, B), seq(any(), seq(any(), tries(1, B))));
    let notice = until(each(), or(long, seq(tries(1, C), tries(1, C))));
    decides(&notice, "ab/a, ac/a", OPEN);
    decides(&notice, "ab/a, ac/a, ac/a", satisfied(3));
    decides(&notice, "ab/a, ac/a, ac/a, ab/a", satisfied(3));
    // The later one fails, and the first goes on.
    decides(&notice, "ab/a, ac/a, a/a", OPEN);
    decides(&notice, "ab/a, ac/a, a/a, ab/a", satisfied(4));
}

#[test]
fn a_violation_in_the_period_of_acceptance_wins() {
    let until_b = until(repeat(joint_duty(A)), tries(1, B));
    decides(&until_b, "a/a, b/a", violated(2, 1));
    decides(&until_b, "a/a, ab/-", violated(2, 2));
    decides(&until_b, "a/a, b/-", violated(2, 3));
    decides(&until(each(), twice()), "a/a, ab/a, ab/-", violated(3, 2));
    let within_three = until(deadline(1, A, 3), tries(1, B));
    decides(&within_three, "-/-, -/-, b/-", violated(3, 1));
    // Before it, and after it.
    decides(&until_b, "a/a, -/a, ab/a", violated(2, 1));
    decides(&until_b, "a/a, ab/a, -/-", satisfied(2));
    decides(&within_three, "-/-, b/-, -/-", satisfied(2));
}

#[test]
fn the_clause_satisfied_in_the_period_of_acceptance() {
    let until_b = until(then(duty(1, A), duty(1, B)), tries(1, B));
    decides(&until_b, "a/a, b/b", satisfied(2));
    // Satisfied once, so what follows begins in period 3 alone.
    let more = then(until_b.clone(), duty(1, A));
    decides(&more, "a/a, ab/ab", OPEN);
    decides(&more, "a/a, b/b, a/a", satisfied(3));
    decides(&more, "a/a, ab/ab, -/-", violated(3, 1));
    decides(&repeat(until_b.clone()), "a/a, b/b, a/a, b/b", OPEN);
    decides(&repeat(until_b), "a/a, b/b, b/b", violated(3, 1));
    // Before it, and after it.
    decides(&until(duty(1, A), tries(1, B)), "a/a, ab/a", satisfied(1));
    let three = then(duty(1, A), then(duty(1, A), duty(1, A)));
    decides(&until(three, tries(1, B)), "a/a, ab/a, a/a", satisfied(2));
}

#[test]
fn a_repeat_begins_the_until_anew() {
    // In period 1 the `until` is accepted, and a stretch of two periods begins that doesn't count
    // in period 2. The window that counts is that of periods 2 and 3.
    let again = repeat(until(deadline(1, A, 2), or(tries(1, C), twice())));
    decides(&again, "bc/-, b/-", OPEN);
    decides(&again, "bc/-, b/-, -/-", violated(3, 1));
    decides(&again, "bc/-, b/-, c/-", violated(3, 1));
    decides(&again, "bc/-, c/-, -/-", OPEN);
    // The stretch of periods 2 and 3 counts, and the next window is that of periods 4 to 6.
    let longer = repeat(until(deadline(1, A, 3), or(tries(1, C), twice())));
    decides(&longer, "bc/-, b/-, -/-, a/-", violated(4, 2));
    decides(&longer, "bc/-, b/-, b/-, -/-, -/-", OPEN);
    decides(&longer, "bc/-, b/-, b/-, -/-, -/-, a/-", violated(6, 2));
}

#[test]
fn a_repeat_begins_the_until_anew_after_its_clause_is_satisfied() {
    let again = repeat(until(deadline(1, A, 2), twice()));
    decides(&again, "ab/a, b/-", OPEN);
    decides(&again, "ab/a, b/-, -/-", violated(3, 1));
    decides(&again, "ab/a, b/-, a/a, -/-", OPEN);
    decides(&again, "ab/a, ab/a, ab/a, b/-, a/-", violated(5, 2));
    let longer = repeat(until(deadline(1, A, 3), twice()));
    decides(&longer, "ab/a, b/-, b/-, -/-, -/-", OPEN);
    decides(&longer, "ab/a, b/-, b/-, -/-, -/-, -/-", violated(6, 1));
}

#[test]
fn a_stretch_that_began_before_the_until() {
    let later = [
        ("ab/a", then(duty(1, A), until(each(), twice()))),
        ("b/a", repair(duty(1, A), until(each(), twice()))),
        ("ab/a", when(tries(1, B), until(each(), twice()))),
    ];
    for (first, clause) in later {
        decides(&clause, &format!("{first}, ab/a"), OPEN);
        decides(&clause, &format!("{first}, ab/a, a/a"), OPEN);
        decides(&clause, &format!("{first}, ab/a, ab/a"), satisfied(3));
        let in_period_3 = format!("{first}, a/a, ab/a");
        decides(&clause, &in_period_3, OPEN);
        decides(&clause, &format!("{in_period_3}, ab/a"), satisfied(4));
    }
}

#[test]
fn each_until_counts_from_its_own_first_period() {
    let inner = || then(duty(1, A), until(each(), twice()));
    decides(&until(inner(), twice()), "ab/a, ab/a", satisfied(2));
    let halves = both(until(each(), twice()), inner());
    decides(&halves, "ab/a, ab/a", OPEN);
    decides(&halves, "ab/a, ab/a, ab/-", violated(3, 2));
    decides(&halves, "ab/a, ab/a, ab/a", satisfied(3));
}

#[test]
fn never_rejected() {
    let notice = until(each(), twice());
    let quiet = vec!["a/a"; 15].join(", ");
    decides(&notice, &quiet, OPEN);
    decides(&notice, &format!("{quiet}, ab/a, ab/a"), satisfied(17));
    decides(&notice, &format!("{quiet}, ab/a, -/a"), violated(17, 1));
    // Stretches that fail.
    decides(&notice, "ab/a, a/a, ab/a, a/a", OPEN);
    decides(&notice, "ab/a, a/a, ab/a, a/a, ab/a, ab/a", satisfied(6));
}

#[test]
fn when_matches_from_its_first_period() {
    let clause = when(twice(), duty(1, A));
    decides(&clause, "a/a", satisfied(1));
    decides(&clause, "-/-, b/-, b/-, -/-", satisfied(1));
    decides(&clause, "b/-", OPEN);
    decides(&clause, "b/-, -/-", satisfied(2));
    decides(&clause, "b/-, -/-, b/-, b/-, -/-", satisfied(2));
    decides(&clause, "b/-, b/-", OPEN);
    decides(&clause, "b/-, b/-, a/-", violated(3, 2));
    let three = when(seq(tries(1, B), seq(tries(1, B), tries(1, C))), duty(1, A));
    decides(&three, "b/-, b/-, b/-, c/-, -/-", satisfied(3));
}

/// The operands of two sorts that come to so many records with the operator's own, from those of
/// each number of records.
fn operands<T: Clone, U: Clone>(
    first: &[Vec<T>],
    second: &[Vec<U>],
    records: usize,
) -> Vec<(T, U)> {
    let mut all = Vec::new();
    for of_first in 1..records - 1 {
        for one in &first[of_first] {
            for two in &second[records - 1 - of_first] {
                all.push((one.clone(), two.clone()));
            }
        }
    }
    all
}

/// The expressions of each number of records up to `most` that are made of these atoms.
fn expressions(atoms: &[Rc<Expression>], most: usize) -> Vec<Vec<Rc<Expression>>> {
    let mut all = vec![vec![], atoms.to_vec()];
    for records in 2..=most {
        let mut larger: Vec<_> = all[records - 1].iter().cloned().map(star).collect();
        for (left, right) in operands(&all, &all, records) {
            larger.push(seq(left.clone(), right.clone()));
            larger.push(or(left, right));
        }
        all.push(larger);
    }
    all
}

/// Those of them that may stand under `when` or `until`.
fn without_empty(atoms: &[Rc<Expression>], most: usize) -> Vec<Vec<Rc<Expression>>> {
    let mut all = expressions(atoms, most);
    for some in &mut all {
        some.retain(|expression| !expression.holds_empty);
    }
    all
}

/// The four periods on action a alone.
fn on_a() -> [Period; 4] {
    [0, 1, 2, 3].map(|attempts| Period {
        one: attempts & 1,
        two: attempts >> 1,
    })
}

/// Every list of so many periods on action a alone.
fn lists(length: usize) -> Vec<Vec<Period>> {
    let mut all = vec![vec![]];
    for _ in 0..length {
        all = all
            .iter()
            .flat_map(|list| on_a().map(|period| [list.as_slice(), &[period]].concat()))
            .collect();
    }
    all
}

#[test]
fn as_when_reads_the_expression_after_a_star() {
    let atoms = [
        any(),
        tries(1, A),
        tries(2, A),
        idle(1, A),
        idle(2, A),
        succeeds(A),
        fails(A),
    ];
    let (mut later, mut never) = (0, 0);
    let lists = lists(4);
    for expression in without_empty(&atoms, 5).concat() {
        let starred = seq(star(any()), expression.clone());
        // Nothing that happens on action a decides the clause of this one.
        let ended = until(repeat(ban(1, B)), expression.clone());
        for list in &lists {
            let accepted = acceptance(&expression, list);
            let read = match accepted {
                None => Reading::Pending,
                Some(k) => Reading::Accepted(k),
            };
            assert_eq!(reading(&starred, list), read, "{starred:?} on {list:?}");
            assert_eq!(waited(&starred, list), read, "{starred:?} on {list:?}");
            let expected = accepted.map_or(OPEN, satisfied);
            assert_eq!(monitored(&ended, list), expected, "{ended:?} on {list:?}");
            later += usize::from(accepted.is_some() && reading(&expression, list) != read);
            never += usize::from(accepted.is_none());
        }
    }
    assert!(later > 1000 && never > 1000);
}

#[test]
fn a_star_before_the_expression_changes_nothing() {
    let atoms = [any(), tries(1, A), idle(2, A), succeeds(A)];
    let clauses = [
        duty(2, A),
        repeat(power(1, A)),
        deadline(1, A, 3),
        repeat(deadline(2, A, 2)),
        then(power(1, A), then(power(2, A), ban(1, A))),
    ];
    let (mut accepted, mut own) = (0, 0);
    let lists = lists(4);
    for expression in without_empty(&atoms, 4).concat() {
        let starred = seq(star(any()), expression.clone());
        for clause in &clauses {
            let plain = until(clause.clone(), expression.clone());
            let starred = until(clause.clone(), starred.clone());
            for list in &lists {
                let expected = decision(&plain, list);
                assert_eq!(decision(&starred, list), expected, "{plain:?} on {list:?}");
                for clause in [&plain, &starred] {
                    assert_eq!(monitored(clause, list), expected, "{clause:?} on {list:?}");
                }
                let alone = decision(clause, list);
                accepted += usize::from(expected != alone);
                own += usize::from(expected == alone && expected != OPEN);
            }
        }
    }
    assert!(accepted > 1000 && own > 1000);
}

/// The clauses of each number of records up to `most`, on action a.
fn clauses(most: usize) -> Vec<Vec<Rc<Clause>>> {
    let expressions = without_empty(&[any(), tries(1, A), idle(2, A)], most);
    let literals = vec![duty(1, A), ban(2, A), power(1, A), deadline(1, A, 2)];
    let mut all = vec![vec![], literals];
    for records in 2..=most {
        let mut larger: Vec<_> = all[records - 1].iter().cloned().map(repeat).collect();
        for (left, right) in operands(&all, &all, records) {
            larger.push(both(left.clone(), right.clone()));
            larger.push(then(left.clone(), right.clone()));
            larger.push(repair(left, right));
        }
        for (expression, clause) in operands(&expressions, &all, records) {
            larger.push(when(expression.clone(), clause.clone()));
            larger.push(until(clause, expression));
        }
        all.push(larger);
    }
    all
}

fn has_until(clause: &Clause) -> bool {
    match clause {
        Clause::Until(..) => true,
        Clause::Both(left, right) | Clause::Then(left, right) | Clause::Repair(left, right) => {
            has_until(left) || has_until(right)
        }
        Clause::Repeat(clause) | Clause::When(_, clause) => has_until(clause),
        _ => false,
    }
}

/// Monitor and definition agree on the list, and on each that up to `more` periods on action a make
/// of it.
fn agree(clause: &Clause, monitor: &Monitor, list: &mut Vec<Period>, more: usize) {
    let expected = decision(clause, list);
    assert_eq!(monitor.decision(), expected, "{clause:?} on {list:?}");
    if more == 0 {
        return;
    }
    for period in on_a() {
        let mut monitor = monitor.clone();
        monitor.step(period.one, period.two);
        list.push(period);
        agree(clause, &monitor, list, more - 1);
        list.pop();
    }
}

#[test]
fn monitor_and_definition_agree_on_every_small_contract() {
    let mut contracts = clauses(6).concat();
    contracts.retain(|clause| has_until(clause));
    assert!(contracts.len() > 2000);
    for clause in contracts {
        agree(&clause, &Monitor::new(&clause), &mut Vec::new(), 5);
    }
}

#[test]
fn many_periods() {
    // A stretch begins in each period, and all of them wait for c.
    let notice = seq(tries(1, B), seq(star(any()), tries(1, C)));
    let mut monitor = Monitor::new(&until(each(), notice));
    for _ in 0..300_000 {
        monitor.step(0b011, 0b001);
    }
    assert_eq!(monitor.decision(), OPEN);
    monitor.step(0b101, 0b001);
    assert_eq!(monitor.decision(), satisfied(300_001));
}

#[test]
fn what_watch_prints() {
    let until_b = contract(&[(1, 1, A), (7, 0, 0), (17, 1, B), (9, 0, 0)]);
    let prints = |text: &str, expected: &str| {
        assert_eq!(watch(&[until_b.clone(), trace(text)].concat()), expected);
    };
    prints("a/a, a/a", "1 open 0\n2 open 0\ndecided 0\n");
    prints(
        "a/a, ab/a, -/-",
        "1 open 0\n2 met 0\n3 met-after 0\ndecided 2\n",
    );
    prints(
        "a/a, b/a, ab/a",
        "1 open 0\n2 broken 1\n3 broken-after 1\ndecided 2\n",
    );
}
