//! Clauses and expressions as trees, decisions and verdicts.

use crate::records::Party;
use std::rc::Rc;

/// What an expression is made of: kinds 16 to 23.
#[derive(Clone, Debug, PartialEq, Eq)]
pub enum Shape {
    Any,
    Tries(Party, u8),
    Idle(Party, u8),
    Succeeds(u8),
    Fails(u8),
    Seq(Rc<Expression>, Rc<Expression>),
    Or(Rc<Expression>, Rc<Expression>),
    Star(Rc<Expression>),
}

/// "An expression has a set of lists of periods."
#[derive(Clone, Debug, PartialEq, Eq)]
pub struct Expression {
    pub shape: Shape,
    /// Whether the set holds the empty list.
    pub holds_empty: bool,
}

impl Expression {
    /// The expression of that shape. "`seq` joins a list of each, `or` takes either, `star` joins
    /// zero or more lists"; kinds 16 to 20 hold lists of one period.
    pub fn new(shape: Shape) -> Rc<Expression> {
        let holds_empty = match &shape {
            Shape::Seq(left, right) => left.holds_empty && right.holds_empty,
            Shape::Or(left, right) => left.holds_empty || right.holds_empty,
            Shape::Star(_) => true,
            _ => false,
        };
        Rc::new(Expression { shape, holds_empty })
    }
}

/// The owner of a duty: one party, or both. "A duty (kind 1 only) may name party 3."
#[derive(Clone, Copy, Debug, PartialEq, Eq)]
pub enum Owner {
    One(Party),
    Both,
}

impl Owner {
    /// The owner that a duty names with that number, if there is one.
    pub fn of_number(number: usize) -> Option<Owner> {
        match number {
            3 => Some(Owner::Both),
            _ => Party::of_number(number).map(Owner::One),
        }
    }
}

/// A clause: kinds 1 to 10. A duty has an owner and an action, ban and power have a party and an
/// action, a deadline also a window of 1 to 15 periods.
#[derive(Clone, Debug, PartialEq, Eq)]
pub enum Clause {
    Duty(Owner, u8),
    Ban(Party, u8),
    Power(Party, u8),
    Both(Rc<Clause>, Rc<Clause>),
    Then(Rc<Clause>, Rc<Clause>),
    Repair(Rc<Clause>, Rc<Clause>),
    Repeat(Rc<Clause>),
    When(Rc<Expression>, Rc<Clause>),
    Until(Rc<Clause>, Rc<Expression>),
    Deadline(Party, u8, u8),
}

/// "On a list of periods a clause is undecided, or satisfied or violated at one period k, counted
/// from 1. A violation carries blame: 1, 2, or 3 for both parties."
#[derive(Clone, Copy, Debug, PartialEq, Eq)]
pub enum Decision {
    Undecided,
    Satisfied { period: usize },
    Violated { period: usize, blame: u8 },
}

impl Decision {
    /// The decision of a clause that reads from the period after the first `periods`, counted
    /// from the start.
    pub fn later_by(self, periods: usize) -> Decision {
        match self {
            Decision::Undecided => Decision::Undecided,
            Decision::Satisfied { period } => Decision::Satisfied {
                period: period + periods,
            },
            Decision::Violated { period, blame } => Decision::Violated {
                period: period + periods,
                blame,
            },
        }
    }

    /// "Outcome (0 undecided, 1 satisfied, 2 violated)."
    pub fn outcome(self) -> u8 {
        match self {
            Decision::Undecided => 0,
            Decision::Satisfied { .. } => 1,
            Decision::Violated { .. } => 2,
        }
    }

    /// "The decision period is 0 while it is undecided."
    pub fn period(self) -> usize {
        match self {
            Decision::Undecided => 0,
            Decision::Satisfied { period } | Decision::Violated { period, .. } => period,
        }
    }

    /// "Blame is 0 unless the clause is violated."
    pub fn blame(self) -> u8 {
        match self {
            Decision::Violated { blame, .. } => blame,
            _ => 0,
        }
    }

    /// The verdict after so many periods.
    pub fn verdict(self, periods: usize) -> Verdict {
        match self {
            Decision::Undecided => Verdict::Open,
            Decision::Satisfied { period } if period == periods => Verdict::Met,
            Decision::Satisfied { .. } => Verdict::MetAfter,
            Decision::Violated { period, .. } if period == periods => Verdict::Broken,
            Decision::Violated { .. } => Verdict::BrokenAfter,
        }
    }
}

/// "Open (0) while undecided; met (1) or broken (2) when n is the decision period; met-after (3)
/// or broken-after (4) later."
#[derive(Clone, Copy, Debug, PartialEq, Eq)]
pub enum Verdict {
    Open = 0,
    Met = 1,
    Broken = 2,
    MetAfter = 3,
    BrokenAfter = 4,
}

impl Verdict {
    /// Its number in a reply.
    pub fn number(self) -> u32 {
        self as u32
    }

    /// Its name in a line of `watch`.
    pub fn name(self) -> &'static str {
        match self {
            Verdict::Open => "open",
            Verdict::Met => "met",
            Verdict::Broken => "broken",
            Verdict::MetAfter => "met-after",
            Verdict::BrokenAfter => "broken-after",
        }
    }
}
