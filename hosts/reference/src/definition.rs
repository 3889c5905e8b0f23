//! "Expressions" and "Meaning of clauses", on whole lists of periods and as the text has it: slow,
//! and with no state between periods.

use crate::clause::{Clause, Decision, Expression, Owner, Shape};
use crate::records::{Party, Period};

/// Whether the list is in the expression's set.
pub fn holds(expression: &Expression, list: &[Period]) -> bool {
    match &expression.shape {
        Shape::Seq(left, right) => {
            splits(list).any(|(first, rest)| holds(left, first) && holds(right, rest))
        }
        Shape::Or(left, right) => holds(left, list) || holds(right, list),
        Shape::Star(each) => {
            list.is_empty()
                || splits(list).any(|(first, rest)| {
                    !first.is_empty() && holds(each, first) && holds(expression, rest)
                })
        }
        _ => matches!(list, [period] if atom_holds(expression, *period)),
    }
}

/// "Kinds 16 to 20 hold the one-period lists where: all; the party tries it; doesn't try it; both
/// try it; not both try it."
pub fn atom_holds(atom: &Expression, period: Period) -> bool {
    match atom.shape {
        Shape::Any => true,
        Shape::Tries(party, action) => period.tries(party, action),
        Shape::Idle(party, action) => !period.tries(party, action),
        Shape::Succeeds(action) => period.succeeds(action),
        Shape::Fails(action) => !period.succeeds(action),
        _ => false,
    }
}

/// Every way to cut a list in two.
fn splits(list: &[Period]) -> impl Iterator<Item = (&[Period], &[Period])> {
    (0..=list.len()).map(|at| list.split_at(at))
}

/// Whether some list "that begins with those k periods is in the set".
///
/// Every atom holds some one-period list, so no expression's set is without lists, and a list of
/// the left of a `seq` can always be joined by some list of the right.
pub fn can_begin(expression: &Expression, list: &[Period]) -> bool {
    match &expression.shape {
        Shape::Seq(left, right) => {
            can_begin(left, list)
                || splits(list).any(|(first, rest)| holds(left, first) && can_begin(right, rest))
        }
        Shape::Or(left, right) => can_begin(left, list) || can_begin(right, list),
        Shape::Star(each) => {
            splits(list).any(|(first, rest)| holds(expression, first) && can_begin(each, rest))
        }
        _ => list.is_empty() || holds(expression, list),
    }
}

/// What the expression of a `when` says of a list.
#[derive(Clone, Copy, Debug, PartialEq, Eq)]
pub enum Reading {
    Pending,
    Accepted(usize),
    Rejected(usize),
}

/// "It is accepted at the least k such that the first k periods are in the set. It is rejected at
/// the least k such that no list at all that begins with those k periods is in the set, provided
/// it wasn't accepted before."
pub fn reading(expression: &Expression, list: &[Period]) -> Reading {
    for k in 0..=list.len() {
        if holds(expression, &list[..k]) {
            return Reading::Accepted(k);
        }
        if !can_begin(expression, &list[..k]) {
            return Reading::Rejected(k);
        }
    }
    Reading::Pending
}

/// Document 02, "An ending that may begin in any period": on the list that an `until` reads, its
/// expression "is accepted at the least k such that the stretch from some period of this `until` to
/// period k is in its set. It is never rejected."
pub fn acceptance(expression: &Expression, list: &[Period]) -> Option<usize> {
    (1..=list.len()).find(|k| (1..=*k).any(|j| holds(expression, &list[j - 1..*k])))
}

/// The decision of a clause on a list of periods.
pub fn decision(clause: &Clause, list: &[Period]) -> Decision {
    match clause {
        Clause::Duty(..) | Clause::Ban(..) | Clause::Power(..) => match list.first() {
            None => Decision::Undecided,
            Some(first) => literal(clause, *first),
        },
        Clause::Both(left, right) => both(decision(left, list), decision(right, list)),
        Clause::Then(left, right) => match decision(left, list) {
            Decision::Satisfied { period } => from_after(right, list, period),
            left => left,
        },
        Clause::Repair(left, right) => match decision(left, list) {
            Decision::Violated { period, .. } => from_after(right, list, period),
            left => left,
        },
        Clause::Repeat(each) => match decision(each, list) {
            Decision::Satisfied { period } => from_after(clause, list, period),
            each => each,
        },
        Clause::When(expression, then) => match reading(expression, list) {
            Reading::Pending => Decision::Undecided,
            Reading::Accepted(k) => from_after(then, list, k),
            Reading::Rejected(k) => Decision::Satisfied { period: k },
        },
        Clause::Until(own, expression) => {
            match (decision(own, list), acceptance(expression, list)) {
                (Decision::Undecided, Some(k)) => Decision::Satisfied { period: k },
                (own, Some(k)) if own.period() > k => Decision::Satisfied { period: k },
                (own, _) => own,
            }
        }
        Clause::Deadline(party, action, window) => deadline(*party, *action, *window, list),
    }
}

/// "The right reads from period k+1."
fn from_after(clause: &Clause, list: &[Period], k: usize) -> Decision {
    decision(clause, &list[k..]).later_by(k)
}

/// "Duty, ban and power decide at period 1. Duty: satisfied if both try; blame p if p doesn't try,
/// otherwise q. Ban: violated if both try, blame p. Power: violated if p tries and q doesn't,
/// blame q." A duty that both parties own: "satisfied when both try; otherwise the blame is on each
/// party that didn't try, so -/- blames both".
pub fn literal(clause: &Clause, first: Period) -> Decision {
    let blame = match *clause {
        Clause::Duty(_, action) if first.succeeds(action) => 0,
        Clause::Duty(Owner::Both, action) => blame_on_the_idle(action, first),
        Clause::Duty(Owner::One(p), action) if !first.tries(p, action) => p.number(),
        Clause::Duty(Owner::One(p), _) => p.other().number(),
        Clause::Ban(p, action) if first.succeeds(action) => p.number(),
        Clause::Power(p, action) if first.tries(p, action) && !first.tries(p.other(), action) => {
            p.other().number()
        }
        _ => 0,
    };
    match blame {
        0 => Decision::Satisfied { period: 1 },
        blame => Decision::Violated { period: 1, blame },
    }
}

/// The blame on each party that doesn't try the action.
fn blame_on_the_idle(action: u8, period: Period) -> u8 {
    let parties = [Party::One, Party::Two].into_iter();
    parties
        .filter(|party| !period.tries(*party, action))
        .map(Party::number)
        .sum()
}

/// "Satisfied in the first of its d periods in which both try. If none of them succeeds it is
/// violated at the d-th, with a plain duty's blame for that period."
fn deadline(party: Party, action: u8, window: u8, list: &[Period]) -> Decision {
    let window = usize::from(window);
    let mut its_periods = list.iter().take(window);
    if let Some(before) = its_periods.position(|period| period.succeeds(action)) {
        return Decision::Satisfied { period: before + 1 };
    }
    match list.get(window - 1) {
        None => Decision::Undecided,
        Some(last) => literal(&Clause::Duty(Owner::One(party), action), *last).later_by(window - 1),
    }
}

/// "Violated at the earlier violation, with that one's blame; the two blames are united if they
/// fall in the same period. Otherwise satisfied when the later half is satisfied."
fn both(left: Decision, right: Decision) -> Decision {
    use Decision::{Satisfied, Undecided, Violated};
    match (left, right) {
        (
            Violated {
                period: k,
                blame: b,
            },
            Violated {
                period: m,
                blame: c,
            },
        ) if k == m => Violated {
            period: k,
            blame: b | c,
        },
        (Violated { period: k, .. }, Violated { period: m, .. }) => {
            if k < m {
                left
            } else {
                right
            }
        }
        (Violated { .. }, _) => left,
        (_, Violated { .. }) => right,
        (Satisfied { period: k }, Satisfied { period: m }) => Satisfied { period: k.max(m) },
        _ => Undecided,
    }
}
