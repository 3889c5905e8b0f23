//! The monitor against the definition, and the definition's structural test for "no list at all"
//! against a search, on random clauses, expressions and lists.

mod common;

use common::*;
use reference::definition::{can_begin, decision, holds, reading, Reading};
use reference::records::Period;
use reference::{Clause, Decision, Expression, Monitor};
use std::rc::Rc;

/// What clauses and lists are about: the first few of these actions.
const ACTIONS: [u8; 3] = [0, 16, 31];

/// A random one of the first `actions` of them.
fn action(random: &mut Random, actions: u64) -> u8 {
    ACTIONS[random.below(actions) as usize]
}

/// A random expression of so many atoms at most, on `actions` actions.
fn expression(random: &mut Random, atoms: u64, actions: u64) -> Rc<Expression> {
    if atoms > 1 && random.below(5) > 0 {
        let first = 1 + random.below(atoms - 1);
        let left = expression(random, first, actions);
        let right = expression(random, atoms - first, actions);
        return if random.below(3) == 0 {
            or(left, right)
        } else {
            seq(left, right)
        };
    }
    if atoms > 0 && random.below(4) == 0 {
        return star(expression(random, atoms, actions));
    }
    let (party, action) = (1 + random.below(2) as usize, action(random, actions));
    match random.below(5) {
        0 => any(),
        1 => tries(party, action),
        2 => idle(party, action),
        3 => succeeds(action),
        _ => fails(action),
    }
}

/// One that may stand under `when` or `until`.
fn without_empty(random: &mut Random, atoms: u64, actions: u64) -> Rc<Expression> {
    loop {
        let expression = expression(random, atoms, actions);
        if !expression.holds_empty {
            return expression;
        }
    }
}

fn clause(random: &mut Random, depth: u64, actions: u64) -> Rc<Clause> {
    let (party, action) = (1 + random.below(2) as usize, action(random, actions));
    if depth == 0 {
        return match random.below(6) {
            0 => duty(party, action),
            1 => joint_duty(action),
            2 => ban(party, action),
            3 => power(party, action),
            4 => deadline(party, action, 1 + random.below(4) as u8),
            _ => deadline(party, action, 1 + random.below(15) as u8),
        };
    }
    match random.below(7) {
        0 => both(
            clause(random, depth - 1, actions),
            clause(random, depth - 1, actions),
        ),
        1 => then(
            clause(random, depth - 1, actions),
            clause(random, depth - 1, actions),
        ),
        2 => repair(
            clause(random, depth - 1, actions),
            clause(random, depth - 1, actions),
        ),
        3 => repeat(clause(random, depth - 1, actions)),
        4 => when(
            without_empty(random, 4, actions),
            clause(random, depth - 1, actions),
        ),
        5 => until(
            clause(random, depth - 1, actions),
            without_empty(random, 4, actions),
        ),
        _ => clause(random, depth - 1, actions),
    }
}

/// A list with many attempts, or with few, so that windows end.
fn list(random: &mut Random, length: u64, actions: u64) -> Vec<Period> {
    let mask: u32 = ACTIONS[..actions as usize].iter().map(|a| 1 << a).sum();
    let many = random.below(3) > 0;
    let attempts = |random: &mut Random| {
        let (one, two) = (random.next(), random.next());
        let drawn = if many { one | two } else { one & two };
        drawn as u32 & mask
    };
    (0..length)
        .map(|_| Period {
            one: attempts(random),
            two: attempts(random),
        })
        .collect()
}

#[test]
fn the_monitor_decides_as_the_definition() {
    let (mut satisfied, mut violated, mut late, mut very_late) = (0, 0, 0, 0);
    for seed in 0..20000 {
        let mut random = Random(seed);
        let actions = 1 + random.below(3);
        let depth = random.below(5);
        let clause = clause(&mut random, depth, actions);
        let length = random.below(20);
        let list = list(&mut random, length, actions);
        let mut monitor = Monitor::new(&clause);
        for n in 0..=list.len() {
            let expected = decision(&clause, &list[..n]);
            assert_eq!(
                monitor.decision(),
                expected,
                "seed {seed}: {clause:?} on {:?}",
                &list[..n]
            );
            assert_eq!(monitor.verdict(), expected.verdict(n));
            if n < list.len() {
                monitor.step(list[n].one, list[n].two);
            }
        }
        satisfied += usize::from(matches!(monitor.decision(), Decision::Satisfied { .. }));
        violated += usize::from(matches!(monitor.decision(), Decision::Violated { .. }));
        late += usize::from(monitor.decision_period() > 2);
        very_late += usize::from(monitor.decision_period() > 10);
    }
    assert!(satisfied > 3000 && violated > 3000 && late > 500 && very_late > 100);
}

#[test]
fn expressions_are_read_as_defined() {
    let (mut accepted, mut rejected, mut pending) = (0, 0, 0);
    for seed in 0..20000 {
        let mut random = Random(seed);
        let actions = 1 + random.below(2);
        let expression = expression(&mut random, 6, actions);
        assert_eq!(
            expression.holds_empty,
            holds(&expression, &[]),
            "{expression:?}"
        );
        if expression.holds_empty {
            continue;
        }
        let list = list(&mut random, 8, actions);
        let expected = reading(&expression, &list);
        assert_eq!(
            waited(&expression, &list),
            expected,
            "seed {seed}: {expression:?} on {list:?}"
        );
        match expected {
            Reading::Pending => pending += 1,
            Reading::Accepted(_) => accepted += 1,
            Reading::Rejected(_) => rejected += 1,
        }
    }
    assert!(accepted > 1000 && rejected > 1000 && pending > 50);
}

/// Whether some list of at most `more` further periods on one action brings the list into the set.
fn found(expression: &Expression, list: &mut Vec<Period>, more: usize) -> bool {
    if holds(expression, list) {
        return true;
    }
    if more == 0 {
        return false;
    }
    for attempts in 0..4 {
        list.push(Period {
            one: attempts & 1,
            two: attempts >> 1,
        });
        let reached = found(expression, list, more - 1);
        list.pop();
        if reached {
            return true;
        }
    }
    false
}

#[test]
fn a_list_can_begin_one_in_the_set_just_when_a_search_finds_one() {
    let (mut can, mut cannot) = (0, 0);
    for seed in 0..3000 {
        let mut random = Random(seed);
        let expression = expression(&mut random, 4, 1);
        let length = random.below(4);
        let mut list = list(&mut random, length, 1);
        // Every atom takes at most one further period of the shortest continuation.
        let searched = found(&expression, &mut list, 4);
        assert_eq!(
            can_begin(&expression, &list),
            searched,
            "seed {seed}: {expression:?} {list:?}"
        );
        can += usize::from(searched);
        cannot += usize::from(!searched);
    }
    assert!(can > 500 && cannot > 500);
}
