//! Reading a contract's bytes, with refusals 1 to 8.

use crate::clause::{Clause, Expression, Owner, Shape};
use crate::records::{refused, Party, Refusal, CONTRACT_MARK, MAX_ACTION, RECORD_BYTES};
use std::rc::Rc;

/// "A contract is 1 to 64 records."
pub const MAX_RECORDS: usize = 64;

/// The sort of an operand, or of what a record completes.
#[derive(Clone, Copy, Debug, PartialEq, Eq)]
pub enum Sort {
    Clause,
    Expression,
}

/// What the party field of a kind may name.
#[derive(Clone, Copy, Debug, PartialEq, Eq)]
pub enum Parties {
    /// Nothing: the kind doesn't use the field.
    None,
    /// A party.
    One,
    /// The owner of a duty.
    OneOrBoth,
}

/// What a kind uses, and what a record of that kind completes.
#[derive(Debug)]
pub struct Kind {
    pub number: u8,
    pub completes: Sort,
    pub operands: &'static [Sort],
    pub parties: Parties,
    pub action: bool,
    pub window: bool,
}

const C: Sort = Sort::Clause;
const E: Sort = Sort::Expression;

const fn kind(number: u8, completes: Sort, operands: &'static [Sort]) -> Kind {
    Kind {
        number,
        completes,
        operands,
        parties: Parties::None,
        action: false,
        window: false,
    }
}

const fn with_fields(number: u8, completes: Sort, parties: Parties) -> Kind {
    Kind {
        number,
        completes,
        operands: &[],
        parties,
        action: true,
        window: false,
    }
}

/// "Kind 10 is a duty with a window."
const DEADLINE: Kind = Kind {
    window: true,
    ..with_fields(10, C, Parties::One)
};

/// "One fixed table gives for each kind its operands and the fields it uses."
pub const KINDS: [Kind; 18] = [
    with_fields(1, C, Parties::OneOrBoth),
    with_fields(2, C, Parties::One),
    with_fields(3, C, Parties::One),
    kind(4, C, &[C, C]),
    kind(5, C, &[C, C]),
    kind(6, C, &[C, C]),
    kind(7, C, &[C]),
    kind(8, C, &[E, C]),
    kind(9, C, &[C, E]),
    DEADLINE,
    kind(16, E, &[]),
    with_fields(17, E, Parties::One),
    with_fields(18, E, Parties::One),
    with_fields(19, E, Parties::None),
    with_fields(20, E, Parties::None),
    kind(21, E, &[E, E]),
    kind(22, E, &[E, E]),
    kind(23, E, &[E]),
];

/// The table's line for a kind.
pub fn kind_of(number: u8) -> Option<&'static Kind> {
    KINDS.iter().find(|kind| kind.number == number)
}

/// What the records before have completed and no operator has taken yet.
#[derive(Clone, Debug)]
enum Operand {
    Clause(Rc<Clause>),
    Expression(Rc<Expression>),
}

impl Operand {
    fn sort(&self) -> Sort {
        match self {
            Operand::Clause(_) => Sort::Clause,
            Operand::Expression(_) => Sort::Expression,
        }
    }
}

/// The clause of a contract, or the first of refusals 1 to 7: "1, then for each record 2, 3, 4, 5,
/// 7, then 6".
pub fn read(contract: &[u8]) -> Result<Rc<Clause>, Refusal> {
    let records = contract.len() / RECORD_BYTES;
    if contract.is_empty() || !contract.len().is_multiple_of(RECORD_BYTES) || records > MAX_RECORDS
    {
        return refused(1, 0);
    }
    let mut stack = Vec::new();
    for (number, record) in contract.chunks(RECORD_BYTES).enumerate() {
        read_record(record, number, &mut stack)?;
    }
    match stack.as_slice() {
        [Operand::Clause(clause)] => Ok(clause.clone()),
        _ => refused(6, records),
    }
}

/// One record: refusals 2, 3, 4, 5 and 7 in that order.
fn read_record(record: &[u8], number: usize, stack: &mut Vec<Operand>) -> Result<(), Refusal> {
    if record[..2] != CONTRACT_MARK {
        return refused(2, number);
    }
    let Some(kind) = kind_of(record[2]) else {
        return refused(3, number);
    };
    if !fields_are_good(kind, record) {
        return refused(4, number);
    }
    let Some(operands) = take_operands(kind, stack) else {
        return refused(5, number);
    };
    let completed = complete(record, &operands);
    if under_when_or_until(&completed).is_some_and(|expression| expression.holds_empty) {
        return refused(7, number);
    }
    stack.push(completed);
    Ok(())
}

/// "Party (1 or 2)", "a duty (kind 1 only) may name party 3", "actions run from 0 to 31", "a window
/// d of 1 to 15 in the record's last byte". "A field that a kind doesn't use is 0."
fn fields_are_good(kind: &Kind, record: &[u8]) -> bool {
    let party = match kind.parties {
        Parties::None => record[3] == 0,
        Parties::One => Party::of_number(record[3].into()).is_some(),
        Parties::OneOrBoth => Owner::of_number(record[3].into()).is_some(),
    };
    let action = if kind.action {
        record[4] <= MAX_ACTION
    } else {
        record[4] == 0
    };
    let window = if kind.window {
        (1..=15).contains(&record[5])
    } else {
        record[5] == 0
    };
    party && action && window
}

/// The operands of a record, first one first; none if some are "missing or of the wrong sort".
fn take_operands(kind: &Kind, stack: &mut Vec<Operand>) -> Option<Vec<Operand>> {
    let from = stack.len().checked_sub(kind.operands.len())?;
    let sorts_match = stack[from..]
        .iter()
        .zip(kind.operands)
        .all(|(o, sort)| o.sort() == *sort);
    sorts_match.then(|| stack.split_off(from))
}

/// The clause or expression that a good record completes.
fn complete(record: &[u8], operands: &[Operand]) -> Operand {
    use Operand::{Clause as C, Expression as E};
    let (kind, action, window) = (record[2], record[4], record[5]);
    let clause = match (kind, operands) {
        (1, []) => Clause::Duty(owner(record), action),
        (2, []) => Clause::Ban(party(record), action),
        (3, []) => Clause::Power(party(record), action),
        (4, [C(left), C(right)]) => Clause::Both(left.clone(), right.clone()),
        (5, [C(left), C(right)]) => Clause::Then(left.clone(), right.clone()),
        (6, [C(left), C(right)]) => Clause::Repair(left.clone(), right.clone()),
        (7, [C(clause)]) => Clause::Repeat(clause.clone()),
        (8, [E(expression), C(clause)]) => Clause::When(expression.clone(), clause.clone()),
        (9, [C(clause), E(expression)]) => Clause::Until(clause.clone(), expression.clone()),
        (10, []) => Clause::Deadline(party(record), action, window),
        _ => return E(Expression::new(shape(record, operands))),
    };
    C(Rc::new(clause))
}

/// The shape of the expression that a good record of kind 16 to 23 completes.
fn shape(record: &[u8], operands: &[Operand]) -> Shape {
    use Operand::Expression as E;
    let (kind, action) = (record[2], record[4]);
    match (kind, operands) {
        (16, []) => Shape::Any,
        (17, []) => Shape::Tries(party(record), action),
        (18, []) => Shape::Idle(party(record), action),
        (19, []) => Shape::Succeeds(action),
        (20, []) => Shape::Fails(action),
        (21, [E(left), E(right)]) => Shape::Seq(left.clone(), right.clone()),
        (22, [E(left), E(right)]) => Shape::Or(left.clone(), right.clone()),
        (23, [E(expression)]) => Shape::Star(expression.clone()),
        _ => unreachable!("the operands are the table's"),
    }
}

/// The owner of a good duty.
fn owner(record: &[u8]) -> Owner {
    Owner::of_number(record[3].into()).expect("the fields are the table's")
}

/// The party of a good record of another kind that uses one.
fn party(record: &[u8]) -> Party {
    Party::of_number(record[3].into()).expect("the fields are the table's")
}

/// The expression that a clause has under `when` or `until` at its top.
fn under_when_or_until(completed: &Operand) -> Option<&Expression> {
    match completed {
        Operand::Clause(clause) => match &**clause {
            Clause::When(expression, _) | Clause::Until(_, expression) => Some(expression),
            _ => None,
        },
        Operand::Expression(_) => None,
    }
}

/// "Image buffer under 8 × (32 × records + 65) bytes", and "4 rows for each period of each window"
/// more: the least length that refusal 8 lets pass.
pub fn least_buffer(contract: &[u8]) -> usize {
    8 * (32 * (contract.len() / RECORD_BYTES) + 65 + 4 * sum_of_windows(contract))
}

/// The most rows of the contract's image: what such a buffer has room for beside the end record.
pub fn max_rows(contract: &[u8]) -> usize {
    least_buffer(contract) / 8 - 1
}

/// The sum of the windows of a contract's deadlines.
pub fn sum_of_windows(contract: &[u8]) -> usize {
    contract
        .chunks_exact(RECORD_BYTES)
        .filter(|record| record[2] == DEADLINE.number)
        .map(|record| usize::from(record[5]))
        .sum()
}

/// What compile reads: the clause, or the first of refusals 1 to 8.
pub fn compile(contract: &[u8], buffer_length: usize) -> Result<Rc<Clause>, Refusal> {
    let clause = read(contract)?;
    if buffer_length < least_buffer(contract) {
        return refused(8, 0);
    }
    Ok(clause)
}
