//! Contracts and traces for the tests.
#![allow(dead_code)]

use reference::definition::{decision, Reading};
use reference::reading::{Read, Waiting};
use reference::{Clause, Decision, Expression, Form, Monitor, Owner, Party, Period, Shape};
use std::rc::Rc;

/// A contract record.
pub fn record(kind: u8, party: u8, action: u8) -> [u8; 6] {
    [0x54, 0x43, kind, party, action, 0]
}

/// The contract record of a deadline.
pub fn deadline_record(party: u8, action: u8, window: u8) -> [u8; 6] {
    [0x54, 0x43, 10, party, action, window]
}

/// A contract of these kinds, parties and actions.
pub fn contract(records: &[(u8, u8, u8)]) -> Vec<u8> {
    records
        .iter()
        .flat_map(|(kind, party, action)| record(*kind, *party, *action))
        .collect()
}

/// A row of an image.
pub fn row(kind: u8, x: u16, y: u16) -> Vec<u8> {
    let (x, y) = (x.to_le_bytes(), y.to_le_bytes());
    vec![0x54, 0x52, kind, 0, x[0], x[1], y[0], y[1]]
}

/// The end record of an image.
pub fn end(s: u16, v1: u16, v2: u16) -> Vec<u8> {
    let (s, v1, v2) = (s.to_le_bytes(), v1.to_le_bytes(), v2.to_le_bytes());
    vec![0x54, 0x45, s[0], s[1], v1[0], v1[1], v2[0], v2[1]]
}

/// The rows of duty 1 a, by hand: row 2 satisfies it, row 3 blames party 1, row 5 party 2. Row 4 is
/// true when party 2 doesn't try.
pub fn duty_rows() -> Vec<u8> {
    let rows = [
        row(2, 1, 0),
        row(2, 2, 0),
        row(4, 0, 1),
        row(3, 0, 0),
        row(3, 1, 0),
        row(4, 0, 4),
    ];
    rows.concat()
}

/// Duty 1 a, by hand.
pub fn duty_image() -> Vec<u8> {
    [duty_rows(), end(2, 3, 5)].concat()
}

/// Repeat (duty 1 a), by hand: never satisfied, so S is a false row.
pub fn repeated_duty() -> Vec<u8> {
    [duty_rows(), row(0, 0, 0), end(6, 3, 5)].concat()
}

/// Decided by repeat (duty 1 a) at period 3, by record 2, with blame 2.
pub const DECIDED: &str = "a/a, ab/a, a/-, a/a, -/-";

/// The periods of a text such as "a/-, ab/b": "party 1 before the slash; - is no attempt".
pub fn periods(text: &str) -> Vec<Period> {
    text.split(", ")
        .filter(|period| !period.is_empty())
        .map(period)
        .collect()
}

fn period(text: &str) -> Period {
    let (one, two) = text.split_once('/').expect("a slash");
    Period {
        one: attempts(one),
        two: attempts(two),
    }
}

/// Letters a to z are actions 0 to 25, and A to F actions 26 to 31.
fn attempts(text: &str) -> u32 {
    text.bytes()
        .filter(|letter| *letter != b'-')
        .map(|letter| match letter {
            b'a'..=b'z' => 1 << (letter - b'a'),
            b'A'..=b'F' => 1 << (letter - b'A' + 26),
            _ => panic!("{letter} is no action"),
        })
        .sum()
}

/// The records of the periods of such a text, in that form.
pub fn trace_in(form: Form, text: &str) -> Vec<u8> {
    periods(text)
        .iter()
        .flat_map(|period| period.record(form))
        .collect()
}

/// Its records in the narrow form.
pub fn trace(text: &str) -> Vec<u8> {
    trace_in(Form::Narrow, text)
}

/// Both meanings give this decision.
pub fn decides(clause: &Clause, trace: &str, expected: Decision) {
    let list = periods(trace);
    assert_eq!(
        decision(clause, &list),
        expected,
        "the definition on {trace}"
    );
    assert_eq!(monitored(clause, &list), expected, "the monitor on {trace}");
}

/// The monitor's decision on the list.
pub fn monitored(clause: &Clause, list: &[Period]) -> Decision {
    let mut monitor = Monitor::new(clause);
    for period in list {
        monitor.step(period.one, period.two);
    }
    monitor.decision()
}

/// What the waiting expression says of the list.
pub fn waited(expression: &Rc<Expression>, list: &[Period]) -> Reading {
    let mut waiting = Waiting::new(expression);
    for (number, period) in list.iter().enumerate() {
        match waiting.read(*period) {
            Read::Pending(left) => waiting = left,
            Read::Accepted => return Reading::Accepted(number + 1),
            Read::Rejected => return Reading::Rejected(number + 1),
        }
    }
    Reading::Pending
}

pub const A: u8 = 0;
pub const B: u8 = 1;

/// The party of that number.
pub fn party(number: usize) -> Party {
    Party::of_number(number).expect("1 or 2")
}

pub fn duty(p: usize, action: u8) -> Rc<Clause> {
    Rc::new(Clause::Duty(Owner::One(party(p)), action))
}

pub fn joint_duty(action: u8) -> Rc<Clause> {
    Rc::new(Clause::Duty(Owner::Both, action))
}

pub fn ban(p: usize, action: u8) -> Rc<Clause> {
    Rc::new(Clause::Ban(party(p), action))
}

pub fn power(p: usize, action: u8) -> Rc<Clause> {
    Rc::new(Clause::Power(party(p), action))
}

pub fn both(left: Rc<Clause>, right: Rc<Clause>) -> Rc<Clause> {
    Rc::new(Clause::Both(left, right))
}

pub fn then(left: Rc<Clause>, right: Rc<Clause>) -> Rc<Clause> {
    Rc::new(Clause::Then(left, right))
}

pub fn repair(left: Rc<Clause>, right: Rc<Clause>) -> Rc<Clause> {
    Rc::new(Clause::Repair(left, right))
}

pub fn repeat(clause: Rc<Clause>) -> Rc<Clause> {
    Rc::new(Clause::Repeat(clause))
}

pub fn when(expression: Rc<Expression>, clause: Rc<Clause>) -> Rc<Clause> {
    Rc::new(Clause::When(expression, clause))
}

pub fn until(clause: Rc<Clause>, expression: Rc<Expression>) -> Rc<Clause> {
    Rc::new(Clause::Until(clause, expression))
}

pub fn deadline(p: usize, action: u8, window: u8) -> Rc<Clause> {
    Rc::new(Clause::Deadline(party(p), action, window))
}

pub fn any() -> Rc<Expression> {
    Expression::new(Shape::Any)
}

pub fn tries(p: usize, action: u8) -> Rc<Expression> {
    Expression::new(Shape::Tries(party(p), action))
}

pub fn idle(p: usize, action: u8) -> Rc<Expression> {
    Expression::new(Shape::Idle(party(p), action))
}

pub fn succeeds(action: u8) -> Rc<Expression> {
    Expression::new(Shape::Succeeds(action))
}

pub fn fails(action: u8) -> Rc<Expression> {
    Expression::new(Shape::Fails(action))
}

pub fn seq(left: Rc<Expression>, right: Rc<Expression>) -> Rc<Expression> {
    Expression::new(Shape::Seq(left, right))
}

pub fn or(left: Rc<Expression>, right: Rc<Expression>) -> Rc<Expression> {
    Expression::new(Shape::Or(left, right))
}

pub fn star(each: Rc<Expression>) -> Rc<Expression> {
    Expression::new(Shape::Star(each))
}

pub const OPEN: Decision = Decision::Undecided;

pub fn satisfied(period: usize) -> Decision {
    Decision::Satisfied { period }
}

pub fn violated(period: usize, blame: u8) -> Decision {
    Decision::Violated { period, blame }
}

/// A small generator of random numbers.
pub struct Random(pub u64);

impl Random {
    pub fn next(&mut self) -> u64 {
        self.0 = self.0.wrapping_add(0x9e37_79b9_7f4a_7c15);
        let mut z = self.0;
        z = (z ^ (z >> 30)).wrapping_mul(0xbf58_476d_1ce4_e5b9);
        z = (z ^ (z >> 27)).wrapping_mul(0x94d0_49bb_1331_11eb);
        z ^ (z >> 31)
    }

    pub fn below(&mut self, limit: u64) -> u64 {
        self.next() % limit
    }
}
