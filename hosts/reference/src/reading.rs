//! An expression that is being read, period by period: what may follow the periods read so far.

use crate::clause::{Expression, Shape};
use crate::definition::atom_holds;
use crate::records::Period;
use std::rc::Rc;

/// Expressions of whose sets one list each remains to be joined, in order; none left is a list in
/// the set.
type Remainder = Option<Rc<Link>>;

#[derive(Debug)]
struct Link {
    first: Rc<Expression>,
    rest: Remainder,
}

/// The remainders after the periods read so far. A list that begins with those periods is in the
/// expression's set exactly when its other periods make up one of the remainders.
///
/// There are never more than the expression has atoms, since the atom that took the last period
/// determines what remains.
#[derive(Clone, Debug)]
pub struct Waiting(Vec<Remainder>);

/// What a period makes of the expression of a `when`.
#[derive(Clone, Debug)]
pub enum Read {
    Pending(Waiting),
    Accepted,
    Rejected,
}

impl Waiting {
    /// The expression before the first period.
    pub fn new(expression: &Rc<Expression>) -> Waiting {
        Waiting(vec![link(expression, &None)])
    }

    /// Reads one period. The remainders that it leaves are never without lists, so the expression
    /// is rejected just when there are none.
    pub fn read(&self, period: Period) -> Read {
        let left = read_remainders(&self.0, period);
        if left.is_empty() {
            Read::Rejected
        } else if left.iter().any(holds_empty) {
            Read::Accepted
        } else {
            Read::Pending(Waiting(left))
        }
    }
}

/// The expression of an `until`, of which a stretch begins in each period: the remainders of all
/// the stretches so far, and that of a stretch which begins in the next period.
///
/// What two stretches leave alike is kept once, so there are never more remainders of the stretches
/// so far than the expression has atoms.
#[derive(Clone, Debug)]
pub struct Stretches {
    so_far: Vec<Remainder>,
    next: Remainder,
}

impl Stretches {
    /// The expression before the first period of its `until`.
    pub fn new(expression: &Rc<Expression>) -> Stretches {
        Stretches {
            so_far: Vec::new(),
            next: link(expression, &None),
        }
    }

    /// Reads one period. What is left, or nothing if the expression is accepted: then some stretch
    /// that ends with this period is in the set.
    pub fn read(&self, period: Period) -> Option<Stretches> {
        let so_far = read_remainders(self.so_far.iter().chain([&self.next]), period);
        if so_far.iter().any(holds_empty) {
            return None;
        }
        Some(Stretches {
            so_far,
            next: self.next.clone(),
        })
    }
}

fn link(first: &Rc<Expression>, rest: &Remainder) -> Remainder {
    Some(Rc::new(Link {
        first: first.clone(),
        rest: rest.clone(),
    }))
}

fn holds_empty(remainder: &Remainder) -> bool {
    match remainder {
        None => true,
        Some(link) => link.first.holds_empty && holds_empty(&link.rest),
    }
}

/// What the period leaves of the remainders.
fn read_remainders<'a>(
    remainders: impl IntoIterator<Item = &'a Remainder>,
    period: Period,
) -> Vec<Remainder> {
    let mut left = Vec::new();
    for remainder in remainders {
        read_remainder(remainder, period, &mut left);
    }
    left
}

/// Adds what the period leaves of a remainder.
fn read_remainder(remainder: &Remainder, period: Period, left: &mut Vec<Remainder>) {
    if let Some(link) = remainder {
        read_expression(&link.first, &link.rest, period, left);
        if link.first.holds_empty {
            read_remainder(&link.rest, period, left);
        }
    }
}

/// Adds what the period leaves of `expression`, with `rest` to come after it.
fn read_expression(
    expression: &Rc<Expression>,
    rest: &Remainder,
    period: Period,
    left: &mut Vec<Remainder>,
) {
    match &expression.shape {
        Shape::Seq(first, second) => {
            read_expression(first, &link(second, rest), period, left);
            if first.holds_empty {
                read_expression(second, rest, period, left);
            }
        }
        Shape::Or(one, two) => {
            read_expression(one, rest, period, left);
            read_expression(two, rest, period, left);
        }
        Shape::Star(each) => {
            read_expression(without_stars(each), &link(expression, rest), period, left);
        }
        _ => {
            if atom_holds(expression, period) && !left.iter().any(|known| same(known, rest)) {
                left.push(rest.clone());
            }
        }
    }
}

/// A star of a star holds the same lists as the one star.
fn without_stars(expression: &Rc<Expression>) -> &Rc<Expression> {
    match &expression.shape {
        Shape::Star(each) => without_stars(each),
        _ => expression,
    }
}

/// Whether two remainders consist of the same expressions of the tree.
fn same(one: &Remainder, two: &Remainder) -> bool {
    match (one, two) {
        (None, None) => true,
        (Some(one), Some(two)) => {
            Rc::ptr_eq(one, two)
                || (Rc::ptr_eq(&one.first, &two.first) && same(&one.rest, &two.rest))
        }
        _ => false,
    }
}
