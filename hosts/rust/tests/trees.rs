//! Trees: the bytes that each builder spells, trees of any shape, and the refusals that are left.

use monitor::{Action, Clause, Contract, Expression, Image, Owner, Party, Record, Window};
use Party::{One, Two};

mod common;
use common::Random;

const A: Action = Action::new(0).unwrap();
const B: Action = Action::new(1).unwrap();
const LAST: Action = Action::new(31).unwrap();
const SHORTEST: Window = Window::new(1).unwrap();
const LONGEST: Window = Window::new(15).unwrap();

/// A record's bytes.
fn bytes(kind: u8, party: u8, action: u8) -> [u8; 6] {
    [0x54, 0x43, kind, party, action, 0]
}

#[track_caller]
fn hold(clause: &Clause, want: &[[u8; 6]]) {
    let contract = Contract::from(clause);
    assert_eq!(contract.as_bytes(), want.concat(), "{clause:?}");
    assert_eq!(Contract::from(clause.clone()), contract);
    assert_eq!(clause.records().collect::<Contract>(), contract);
    assert_eq!(clause.records().len(), want.len());
}

/// Two clauses and their bytes, the second one longer.
fn operands() -> [(Clause, Vec<[u8; 6]>); 2] {
    [
        (Clause::duty(Two, A), vec![bytes(1, 2, 0)]),
        (
            Clause::ban(One, LAST).repeat(),
            vec![bytes(2, 1, 31), bytes(7, 0, 0)],
        ),
    ]
}

/// Two expressions and their bytes, the first one longer.
fn expressions() -> [(Expression, Vec<[u8; 6]>); 2] {
    [
        (
            Expression::fails(LAST).star(),
            vec![bytes(20, 0, 31), bytes(23, 0, 0)],
        ),
        (Expression::idle(Two, B), vec![bytes(18, 2, 1)]),
    ]
}

#[test]
fn clauses_of_one_record() {
    hold(&Clause::duty(One, B), &[bytes(1, 1, 1)]);
    hold(&Clause::duty(Two, LAST), &[bytes(1, 2, 31)]);
    hold(&Clause::duty(Owner::Party(Two), A), &[bytes(1, 2, 0)]);
    hold(&Clause::duty(Owner::Both, LAST), &[bytes(1, 3, 31)]);
    hold(&Clause::ban(Two, B), &[bytes(2, 2, 1)]);
    hold(&Clause::power(One, LAST), &[bytes(3, 1, 31)]);
    let deadline = Clause::deadline(One, LAST, SHORTEST);
    hold(&deadline, &[[0x54, 0x43, 10, 1, 31, 1]]);
    let deadline = Clause::deadline(Two, B, LONGEST);
    hold(&deadline, &[[0x54, 0x43, 10, 2, 1, 15]]);
}

/// The left operand's records, the right one's, the operator: whichever is longer.
#[test]
fn operators_on_clauses() {
    let operators: [fn(Clause, Clause) -> Clause; 3] = [Clause::both, Clause::then, Clause::repair];
    for (operator, kind) in operators.into_iter().zip(4..) {
        for (left, left_bytes) in operands() {
            for (right, right_bytes) in operands() {
                let want = [&left_bytes[..], &right_bytes, &[bytes(kind, 0, 0)]].concat();
                hold(&operator(left.clone(), right), &want);
            }
        }
    }
    for (clause, clause_bytes) in operands() {
        let want = [&clause_bytes[..], &[bytes(7, 0, 0)]].concat();
        hold(&clause.repeat(), &want);
    }
}

#[test]
fn when_and_until() {
    for (clause, clause_bytes) in operands() {
        for (expression, expression_bytes) in expressions() {
            let want = [&expression_bytes[..], &clause_bytes, &[bytes(8, 0, 0)]].concat();
            hold(&Clause::when(expression.clone(), clause.clone()), &want);
            let want = [&clause_bytes[..], &expression_bytes, &[bytes(9, 0, 0)]].concat();
            hold(&clause.clone().until(expression), &want);
        }
    }
}

/// Each under an `until`.
#[test]
fn expressions_of_every_kind() {
    let hold = |expression: &Expression, want: &[[u8; 6]]| {
        let spelled: Vec<_> = expression.records().map(Record::to_bytes).collect();
        assert_eq!(spelled, want, "{expression:?}");
        let until = Clause::duty(One, A).until(expression.clone());
        hold(
            &until,
            &[&[bytes(1, 1, 0)], want, &[bytes(9, 0, 0)]].concat(),
        );
    };
    hold(&Expression::any(), &[bytes(16, 0, 0)]);
    hold(&Expression::tries(One, B), &[bytes(17, 1, 1)]);
    hold(&Expression::idle(Two, LAST), &[bytes(18, 2, 31)]);
    hold(&Expression::succeeds(B), &[bytes(19, 0, 1)]);
    hold(&Expression::fails(LAST), &[bytes(20, 0, 31)]);
    let operators: [fn(Expression, Expression) -> Expression; 2] =
        [Expression::seq, Expression::or];
    for (operator, kind) in operators.into_iter().zip(21..) {
        for (left, left_bytes) in expressions() {
            for (right, right_bytes) in expressions() {
                let want = [&left_bytes[..], &right_bytes, &[bytes(kind, 0, 0)]].concat();
                hold(&operator(left.clone(), right), &want);
            }
        }
    }
    for (expression, expression_bytes) in expressions() {
        let want = [&expression_bytes[..], &[bytes(23, 0, 0)]].concat();
        hold(&expression.star(), &want);
    }
}

/// Clauses are the same when their records are, however they were put together.
#[test]
fn equal_trees() {
    let duty = || Clause::duty(One, A);
    let right = duty().then(duty().then(duty()));
    let left = duty().then(duty()).then(duty());
    assert_ne!(left, right);
    assert_eq!(right, duty().then(duty().then(duty())));
    assert_eq!(
        format!("{:?}", duty().repeat()),
        "Clause([Duty(Party(One), Action(0)), Repeat])"
    );
    assert_eq!(right.records().next_back(), Some(Record::Then));
}

/// 32 deadlines of the longest window with their operators, which want the longest buffers.
#[test]
fn the_longest_windows() {
    let deadline = || Clause::deadline(One, A, LONGEST);
    let clause = (1..32).fold(deadline(), |clause, _| clause.both(deadline()));
    assert_eq!(clause.records().len(), 63);
    assert!(Image::compile(Contract::from(&clause)).is_ok());
    let clause = clause.repeat();
    assert!(Image::compile(Contract::from(&clause)).is_ok());
    let refusal = Image::compile(Contract::from(clause.repeat())).unwrap_err();
    assert_eq!((refusal.fault.number(), refusal.place), (1, 0));
}

#[test]
fn sixty_four_records_and_sixty_five() {
    let mut clause = Clause::duty(One, A);
    for _ in 1..Contract::MAX_RECORDS {
        clause = clause.repeat();
    }
    assert!(Image::compile(Contract::from(&clause)).is_ok());
    let refusal = Image::compile(Contract::from(clause.repeat())).unwrap_err();
    assert_eq!((refusal.fault.number(), refusal.place), (1, 0));
}

#[test]
fn the_empty_list() {
    let refusal = |clause: Clause| {
        let refusal = Image::compile(Contract::from(clause)).unwrap_err();
        (refusal.fault.number(), refusal.place)
    };
    let (star, duty) = (Expression::any().star(), Clause::duty(One, A));
    assert_eq!(refusal(Clause::when(star.clone(), duty.clone())), (7, 3));
    assert_eq!(refusal(duty.until(star).repeat()), (7, 3));
}

/// Far deeper than what is taken: nothing recurses, and the time isn't quadratic.
#[test]
fn deep_trees() {
    const DEPTH: usize = 500_000;
    let duty = || Clause::duty(One, A);
    let (mut left, mut right, mut repeats) = (duty(), duty(), duty());
    let mut expression = Expression::any();
    for _ in 0..DEPTH {
        left = left.then(duty());
        right = duty().then(right);
        repeats = repeats.repeat();
        expression = Expression::any().or(expression).star();
    }
    assert_eq!(left.records().len(), 2 * DEPTH + 1);
    assert_eq!(right.records().len(), 2 * DEPTH + 1);
    assert_eq!(repeats.records().len(), DEPTH + 1);
    assert_eq!(expression.records().len(), 3 * DEPTH + 1);
    assert_ne!(left, right);
    assert_eq!(right.clone(), right);
    for clause in [left, right, repeats.until(expression)] {
        let refusal = Image::compile(Contract::from(clause)).unwrap_err();
        assert_eq!((refusal.fault.number(), refusal.place), (1, 0));
    }
}

/// A tree of either sort.
enum Tree {
    Clause(Clause),
    Expression(Expression),
}
use Tree::{Clause as C, Expression as E};

/// A tree without operands, and its record.
fn leaf(random: &mut Random) -> (Tree, Record) {
    let p = [One, Two][random.below(2)];
    let o = [p.into(), Owner::Both][random.below(2)];
    let a = Action::new(random.below(32) as u8).unwrap();
    let d = Window::new(1 + random.below(15) as u8).unwrap();
    match random.below(9) {
        0 => (C(Clause::duty(o, a)), Record::Duty(o, a)),
        1 => (C(Clause::ban(p, a)), Record::Ban(p, a)),
        2 => (C(Clause::power(p, a)), Record::Power(p, a)),
        3 => (C(Clause::deadline(p, a, d)), Record::Deadline(p, a, d)),
        4 => (E(Expression::any()), Record::Any),
        5 => (E(Expression::tries(p, a)), Record::Tries(p, a)),
        6 => (E(Expression::idle(p, a)), Record::Idle(p, a)),
        7 => (E(Expression::succeeds(a)), Record::Succeeds(a)),
        _ => (E(Expression::fails(a)), Record::Fails(a)),
    }
}

/// A tree over another, and its record.
fn over(tree: Tree) -> (Tree, Record) {
    match tree {
        C(clause) => (C(clause.repeat()), Record::Repeat),
        E(expression) => (E(expression.star()), Record::Star),
    }
}

/// A tree over two others, and its record: some operator takes every pair.
fn join(random: &mut Random, left: Tree, right: Tree) -> (Tree, Record) {
    match (left, right, random.below(3)) {
        (C(left), C(right), 0) => (C(left.both(right)), Record::Both),
        (C(left), C(right), 1) => (C(left.then(right)), Record::Then),
        (C(left), C(right), _) => (C(left.repair(right)), Record::Repair),
        (E(left), C(right), _) => (C(Clause::when(left, right)), Record::When),
        (C(left), E(right), _) => (C(left.until(right)), Record::Until),
        (E(left), E(right), 0) => (E(left.or(right)), Record::Or),
        (E(left), E(right), _) => (E(left.seq(right)), Record::Seq),
    }
}

/// A clause of about so many records, and these in the order in which it was built.
fn random_clause(random: &mut Random, records: usize) -> (Clause, Vec<Record>) {
    let (mut pending, mut spelled) = (Vec::new(), Vec::new());
    loop {
        let (tree, record) = match (pending.pop(), pending.pop()) {
            (Some(C(clause)), None) if spelled.len() >= records => return (clause, spelled),
            (Some(top), below) if random.below(10) == 0 => {
                pending.extend(below);
                over(top)
            }
            (Some(right), Some(left)) if spelled.len() >= records || random.below(2) == 0 => {
                join(random, left, right)
            }
            (top, below) => {
                pending.extend(below);
                pending.extend(top);
                leaf(random)
            }
        };
        pending.push(tree);
        spelled.push(record);
    }
}

/// They spell what they should, and of those of at most 64 records none is refused but by 7.
#[test]
fn random_trees() {
    let random = &mut Random::new(1);
    let (mut taken, mut refused, mut long) = (0, 0, 0);
    for _ in 0..5000 {
        let records = 1 + random.below(80);
        let (clause, spelled) = random_clause(random, records);
        let contract = Contract::from(clause);
        assert_eq!(contract, Contract::from_records(&spelled));
        match Image::compile(contract).map_err(|refusal| refusal.fault.number()) {
            Ok(_) => taken += 1,
            Err(7) => refused += 1,
            Err(1) if spelled.len() > Contract::MAX_RECORDS => long += 1,
            Err(other) => panic!("refusal {other}: {spelled:?}"),
        }
    }
    let all = [taken, refused, long];
    assert!(all.iter().all(|&trees| trees > 500), "{all:?}");
}
