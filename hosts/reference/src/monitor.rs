//! The meaning of a contract period by period, on the tree of its clauses.

use crate::clause::{Clause, Decision, Owner, Verdict};
use crate::definition::literal;
use crate::reading::{Read, Stretches, Waiting};
use crate::records::{Party, Period};
use std::rc::Rc;

/// What is left of an undecided clause after the periods read so far.
#[derive(Clone, Debug)]
enum Rest {
    /// A clause that reads from the next period.
    Unread(Rc<Clause>),
    Both(Box<Rest>, Box<Rest>),
    Then(Box<Rest>, Rc<Clause>),
    Repair(Box<Rest>, Rc<Clause>),
    When(Waiting, Rc<Clause>),
    Until(Box<Rest>, Stretches),
}

/// What a period makes of an undecided clause.
enum Progress {
    Open(Rest),
    Satisfied,
    Violated(u8),
}

fn unread(clause: &Rc<Clause>) -> Rest {
    Rest::Unread(clause.clone())
}

impl Rest {
    fn step(self, period: Period) -> Progress {
        match self {
            Rest::Unread(clause) => first_step(&clause, period),
            Rest::Both(left, right) => both(left.step(period), right.step(period)),
            Rest::Then(left, right) => then(left.step(period), &right),
            Rest::Repair(left, right) => repair(left.step(period), &right),
            Rest::When(waiting, clause) => when(waiting.read(period), &clause),
            Rest::Until(own, stretches) => until(own.step(period), stretches.read(period)),
        }
    }
}

/// The first period of a clause.
fn first_step(clause: &Rc<Clause>, period: Period) -> Progress {
    match &**clause {
        Clause::Duty(..) | Clause::Ban(..) | Clause::Power(..) => decided(literal(clause, period)),
        Clause::Both(left, right) => both(unread(left).step(period), unread(right).step(period)),
        Clause::Then(left, right) => then(unread(left).step(period), right),
        Clause::Repair(left, right) => repair(unread(left).step(period), right),
        // "Each satisfaction at k begins the clause anew at k+1": a `then` before itself.
        Clause::Repeat(each) => then(unread(each).step(period), clause),
        Clause::When(expression, then) => when(Waiting::new(expression).read(period), then),
        Clause::Until(own, expression) => {
            let stretches = Stretches::new(expression);
            until(unread(own).step(period), stretches.read(period))
        }
        Clause::Deadline(party, action, window) => deadline(*party, *action, *window, period),
    }
}

/// A decision in this period.
fn decided(decision: Decision) -> Progress {
    match decision {
        Decision::Violated { blame, .. } => Progress::Violated(blame),
        _ => Progress::Satisfied,
    }
}

/// A period without success leaves a deadline with one period fewer, and the last of its periods
/// is a plain duty's.
fn deadline(party: Party, action: u8, window: u8, period: Period) -> Progress {
    if window > 1 && !period.succeeds(action) {
        let later = Clause::Deadline(party, action, window - 1);
        return Progress::Open(Rest::Unread(Rc::new(later)));
    }
    decided(literal(&Clause::Duty(Owner::One(party), action), period))
}

/// "Violated at the earlier violation; the two blames are united if they fall in the same period."
/// A half that is satisfied leaves the other alone; a violation ends both.
fn both(left: Progress, right: Progress) -> Progress {
    use Progress::{Open, Satisfied, Violated};
    match (left, right) {
        (Violated(one), Violated(two)) => Violated(one | two),
        (Violated(blame), _) | (_, Violated(blame)) => Violated(blame),
        (Satisfied, rest) | (rest, Satisfied) => rest,
        (Open(left), Open(right)) => Open(Rest::Both(Box::new(left), Box::new(right))),
    }
}

/// "When the left is satisfied at k, the right reads from period k+1."
fn then(left: Progress, right: &Rc<Clause>) -> Progress {
    match left {
        Progress::Satisfied => Progress::Open(unread(right)),
        Progress::Open(left) => Progress::Open(Rest::Then(Box::new(left), right.clone())),
        violated => violated,
    }
}

/// "When the left is violated at k, the right reads from k+1 and its blame alone counts."
fn repair(left: Progress, right: &Rc<Clause>) -> Progress {
    match left {
        Progress::Violated(_) => Progress::Open(unread(right)),
        Progress::Open(left) => Progress::Open(Rest::Repair(Box::new(left), right.clone())),
        satisfied => satisfied,
    }
}

/// "Expression accepted at k, the clause reads from k+1; rejected at k, satisfied at k."
fn when(read: Read, clause: &Rc<Clause>) -> Progress {
    match read {
        Read::Accepted => Progress::Open(unread(clause)),
        Read::Rejected => Progress::Satisfied,
        Read::Pending(waiting) => Progress::Open(Rest::When(waiting, clause.clone())),
    }
}

/// "The clause's own decision if it comes no later than acceptance; otherwise satisfied at
/// acceptance."
fn until(own: Progress, stretches: Option<Stretches>) -> Progress {
    match (own, stretches) {
        (Progress::Open(_), None) => Progress::Satisfied,
        (Progress::Open(own), Some(stretches)) => {
            Progress::Open(Rest::Until(Box::new(own), stretches))
        }
        (own, _) => own,
    }
}

/// A contract that is being monitored.
#[derive(Clone, Debug)]
pub struct Monitor {
    /// What is left to read; nothing after the decision.
    rest: Option<Rest>,
    decision: Decision,
    periods: usize,
}

impl Monitor {
    /// The monitor of a contract's clause before its first period.
    pub fn new(clause: &Clause) -> Monitor {
        Monitor {
            rest: Some(Rest::Unread(Rc::new(clause.clone()))),
            decision: Decision::Undecided,
            periods: 0,
        }
    }

    /// Reads one period: the attempts of party 1, and those of party 2.
    pub fn step(&mut self, one: u32, two: u32) {
        self.periods += 1;
        let period = self.periods;
        if let Some(rest) = self.rest.take() {
            match rest.step(Period { one, two }) {
                Progress::Open(rest) => self.rest = Some(rest),
                Progress::Satisfied => self.decision = Decision::Satisfied { period },
                Progress::Violated(blame) => self.decision = Decision::Violated { period, blame },
            }
        }
    }

    /// The verdict after the periods so far.
    pub fn verdict(&self) -> Verdict {
        self.decision.verdict(self.periods)
    }

    /// "Blame is 0 unless the clause is violated."
    pub fn blame(&self) -> u8 {
        self.decision.blame()
    }

    /// "The decision period is 0 while it is undecided."
    pub fn decision_period(&self) -> usize {
        self.decision.period()
    }

    /// The decision on the periods so far.
    pub fn decision(&self) -> Decision {
        self.decision
    }

    /// The number of periods so far.
    pub fn periods(&self) -> usize {
        self.periods
    }
}
