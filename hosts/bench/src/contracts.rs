//! Contracts to measure, and families of them by length.

use monitor::Record::{
    Any, Ban, Both, Deadline, Duty, Fails, Idle, Or, Repair, Repeat, Seq, Star, Succeeds, Then,
    Tries, Until, When,
};
use monitor::{Action, Contract, Party, Period, Record, Window};
use reference::Clause;
use std::rc::Rc;

const ONE: Party = Party::One;
const TWO: Party = Party::Two;
const LONGEST: Window = Window::new(Window::MAX).unwrap();

fn action(number: usize) -> Action {
    Action::new((number % 16) as u8).expect("below 16")
}

/// A contract with a period that leaves it open again and again.
pub struct Open {
    pub name: String,
    pub records: usize,
    pub bytes: Vec<u8>,
    pub kept: Period,
}

impl Open {
    fn new(name: impl Into<String>, records: &[Record], kept: Period) -> Open {
        Open {
            name: name.into(),
            records: records.len(),
            bytes: bytes(records),
            kept,
        }
    }

    /// The sum of all windows.
    pub fn windows(&self) -> usize {
        let records = self.bytes.chunks_exact(Record::BYTES);
        records.map(|record| usize::from(record[5])).sum()
    }

    pub fn clause(&self) -> Rc<Clause> {
        clause(&self.bytes)
    }
}

/// The clause that the reference reads.
pub fn clause(contract: &[u8]) -> Rc<Clause> {
    reference::contract::read(contract).expect("the contract is taken")
}

fn bytes(records: &[Record]) -> Vec<u8> {
    Contract::from_records(records).as_bytes().to_vec()
}

const ALL: Period = Period::from_masks(0xffff, 0xffff);
const ALL_BUT_LAST: Period = Period::from_masks(0x7fff, 0x7fff);

/// A lone duty, which decides in period 1.
pub fn duty() -> Vec<u8> {
    bytes(&[Duty(ONE.into(), action(0))])
}

/// Repeat (duty).
pub fn repeated_duty() -> Open {
    Open::new("repeated duty", &[Duty(ONE.into(), action(0)), Repeat], ALL)
}

/// Document 01's example of "Watch".
pub fn repaired_duty() -> Open {
    let records = [
        Duty(ONE.into(), action(0)),
        Duty(ONE.into(), action(1)),
        Repair,
        Repeat,
    ];
    Open::new("repaired duty", &records, ALL)
}

/// A repaired duty and a ban, 8 records.
pub fn duty_and_ban() -> Open {
    let records = [
        Duty(ONE.into(), action(0)),
        Duty(TWO.into(), action(1)),
        Repair,
        Repeat,
        Ban(TWO, action(15)),
        Repeat,
        Both,
        Repeat,
    ];
    Open::new("duty and ban", &records, ALL_BUT_LAST)
}

/// 13 repaired duties side by side.
pub fn repairs() -> Open {
    let leaf = |k| {
        vec![
            Duty(ONE.into(), action(k)),
            Duty(TWO.into(), action(13 + k % 3)),
            Repair,
            Repeat,
        ]
    };
    Open::new("13 repaired duties", &side_by_side(13, &leaf), ALL)
}

/// 13 times: whenever party 1 tries, party 2 has a duty.
pub fn whens() -> Open {
    let leaf = |k| {
        vec![
            Tries(ONE, action(k)),
            Duty(TWO.into(), action(k + 1)),
            When,
            Repeat,
        ]
    };
    Open::new("13 repeated whens", &side_by_side(13, &leaf), ALL)
}

/// 63 repeats of a duty.
pub fn deep_repeats() -> Open {
    Open::new("63 repeats of a duty", &repeat_chain(64), ALL)
}

/// A repeat of nested `when` and `until`.
pub fn nested() -> Open {
    let mut records = nest(63);
    records.push(Repeat);
    Open::new("nested when, until", &records, ALL)
}

/// A repeated duty until a long expression, of which many parts wait for the next period.
pub fn long_expression() -> Open {
    let mut records = vec![Duty(ONE.into(), action(0)), Repeat, Repeat, Any, Star];
    for k in 0..14 {
        let either = [Tries(ONE, action(k)), Tries(TWO, action(k + 1)), Or, Seq];
        records.extend(either);
    }
    records.extend([Succeeds(action(15)), Seq, Until]);
    Open::new("long expression", &records, ALL_BUT_LAST)
}

/// Repeat (deadline).
pub fn repeated_deadline(window: Window) -> Open {
    let name = format!("repeated deadline of {}", window.periods());
    Open::new(name, &[Deadline(ONE, action(0), window), Repeat], ALL)
}

/// 32 deadlines side by side.
pub fn deadlines(window: Window) -> Open {
    let name = format!("32 deadlines of {}", window.periods());
    Open::new(name, &deadline_tree(64, window), ALL)
}

/// With the longest windows: no contract has a larger image.
pub fn longest_deadlines() -> Open {
    deadlines(LONGEST)
}

/// A balanced tree of `both` over so many clauses.
fn side_by_side(clauses: usize, leaf: &dyn Fn(usize) -> Vec<Record>) -> Vec<Record> {
    fn from(first: usize, clauses: usize, leaf: &dyn Fn(usize) -> Vec<Record>) -> Vec<Record> {
        if clauses == 1 {
            return leaf(first);
        }
        let left = clauses / 2;
        let mut records = from(first, left, leaf);
        records.extend(from(first + left, clauses - left, leaf));
        records.push(Both);
        records
    }
    from(0, clauses, leaf)
}

/// Contracts by their number of records.
pub struct Family {
    pub name: &'static str,
    records: fn(usize) -> Vec<Record>,
}

impl Family {
    /// The contract of so many records, a power of two.
    pub fn contract(&self, records: usize) -> Vec<u8> {
        let contract = (self.records)(records);
        assert_eq!(contract.len(), records, "{}", self.name);
        bytes(&contract)
    }
}

pub const FAMILIES: [Family; 6] = [
    Family {
        name: "chain of repeats over a duty",
        records: repeat_chain,
    },
    Family {
        name: "balanced tree of both over duties",
        records: duty_tree,
    },
    Family {
        name: "left-deep chain of then, repair over duties",
        records: join_chain,
    },
    Family {
        name: "nested when, until with expressions",
        records: nest,
    },
    Family {
        name: "chain of seq, or, star under until",
        records: expression_chain,
    },
    Family {
        name: "balanced tree of both over deadlines of 15",
        records: |records| deadline_tree(records, LONGEST),
    },
];

fn repeat_chain(records: usize) -> Vec<Record> {
    let mut chain = vec![Duty(ONE.into(), action(0))];
    chain.resize(records, Repeat);
    chain
}

fn duty_tree(records: usize) -> Vec<Record> {
    both_tree(records, &|k| Duty(ONE.into(), action(k)))
}

fn deadline_tree(records: usize, window: Window) -> Vec<Record> {
    both_tree(records, &|k| Deadline(ONE, action(k), window))
}

/// Half of the records are leaves; a repeat on top makes the number even.
fn both_tree(records: usize, leaf: &dyn Fn(usize) -> Record) -> Vec<Record> {
    let mut tree = side_by_side(records.div_ceil(2), &|k| vec![leaf(k)]);
    tree.resize(records, Repeat);
    tree
}

fn join_chain(records: usize) -> Vec<Record> {
    let mut chain = repeat_chain(records.min(2));
    while chain.len() < records {
        let k = chain.len();
        let join = if k.is_multiple_of(4) { Then } else { Repair };
        chain.extend([Duty(TWO.into(), action(k)), join]);
    }
    chain
}

/// Around a repeated duty in turn: `when` an action is tried, `until` one fails, `when` either of
/// two, `until` one is tried at last; what is left are repeats.
fn nest(records: usize) -> Vec<Record> {
    let mut nest = repeat_chain(records.min(2));
    for turn in 0.. {
        let a = action(turn);
        let around = |expression: &[Record], operator| match operator {
            When => [expression, &nest, &[When]].concat(),
            _ => [&nest, expression, &[Until]].concat(),
        };
        let next = match turn % 4 {
            0 => around(&[Tries(ONE, a)], When),
            1 => around(&[Fails(a)], Until),
            2 => around(&[Succeeds(a), Idle(TWO, a), Or], When),
            _ => around(&[Any, Star, Tries(TWO, a), Seq], Until),
        };
        if next.len() > records {
            break;
        }
        nest = next;
    }
    nest.resize(records, Repeat);
    nest
}

/// A repeated duty until an expression that grows in turn by `seq`, `or`, and `star` with `seq`.
fn expression_chain(records: usize) -> Vec<Record> {
    if records < 4 {
        return repeat_chain(records);
    }
    let mut expression = vec![Tries(ONE, action(1))];
    for turn in 0.. {
        let a = action(turn);
        let more: &[Record] = match turn % 3 {
            0 => &[Tries(TWO, a), Seq],
            1 => &[Fails(a), Or],
            _ => &[Star, Idle(ONE, a), Seq],
        };
        if expression.len() + more.len() + 3 > records {
            break;
        }
        expression.extend(more);
    }
    let mut contract = repeat_chain(records - expression.len() - 1);
    contract.extend(expression);
    contract.push(Until);
    contract
}
