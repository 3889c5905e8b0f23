//! Random contracts, good ones and damaged ones.

use crate::random::Random;
use crate::traces::UPPER;
use reference::contract::{kind_of, read, Kind, Parties, Sort, KINDS, MAX_RECORDS};
use reference::records::CONTRACT_MARK;

/// Bytes of a record.
pub const RECORD: usize = 6;

/// How an operator's records are divided between two operands.
#[derive(Clone, Copy)]
enum Shape {
    Uniform,
    LeftDeep,
    RightDeep,
    Balanced,
}

/// Short windows, which short traces outlast.
const SHORT: &[u8] = &[1, 2, 2, 3];
const MIDDLING: &[u8] = &[2, 3, 4, 5];
const ALL: &[u8] = &[1, 2, 3, 4, 5, 6, 7, 8, 9, 10, 11, 12, 13, 14, 15];
const LONGEST: &[u8] = &[15];

/// What the fields of records are drawn from.
struct Fields {
    /// The lowest action, and how many there are from it on.
    first: usize,
    actions: usize,
    /// The owners of duties, as often as they are drawn; 3 is both parties.
    owners: &'static [u8],
    /// The windows of deadlines, as often as they are drawn.
    windows: &'static [u8],
}

/// What a random contract is drawn from.
struct Style {
    shape: Shape,
    fields: Fields,
    /// The kinds of duty, ban, power and deadline, as often as they are drawn.
    literals: &'static [u8],
    /// The kinds of `both`, `then` and `repair`, as often as they are drawn.
    joins: &'static [u8],
    /// Chance of an operator with one operand, where there is a choice.
    chain: usize,
    /// Chance of `when` and `until`, where there is a choice.
    expressions: usize,
    /// Chance of an expression with the empty list under `when` or `until`.
    empty: usize,
}

impl Style {
    fn random(random: &mut Random, empty: usize) -> Style {
        let shapes = [
            Shape::Uniform,
            Shape::LeftDeep,
            Shape::RightDeep,
            Shape::Balanced,
        ];
        let actions = random.pick(&[1, 1, 2, 2, 3, 4, 16, 32]);
        Style {
            shape: random.pick(&shapes),
            fields: Fields {
                first: first_of(random, actions),
                actions,
                owners: random.pick(&[&[1, 2], &[1, 2], &[1, 2, 3], &[1, 2, 3, 3, 3], &[3]]),
                windows: random.pick(&[SHORT, SHORT, MIDDLING, ALL, LONGEST]),
            },
            literals: random.pick(&[
                &[1, 1, 2, 3],
                &[1],
                &[2, 3],
                &[1, 2, 2, 3, 3],
                &[1, 2, 3, 10],
                &[2, 3, 10, 10],
                &[10],
            ]),
            joins: random.pick(&[&[4, 5, 6], &[4], &[4, 5], &[5, 6], &[4, 4, 6]]),
            chain: random.pick(&[0, 5, 10, 20, 80]),
            expressions: random.pick(&[0, 30, 30, 60, 90]),
            empty,
        }
    }

    /// Two parts of at least 1 that make up `records`, which is at least 2.
    fn split(&self, random: &mut Random, records: usize) -> (usize, usize) {
        let left = match self.shape {
            Shape::Uniform => random.between(1, records - 1),
            Shape::LeftDeep => records - random.between(1, 2.min(records - 1)),
            Shape::RightDeep => random.between(1, 2.min(records - 1)),
            Shape::Balanced => records / 2,
        };
        (left, records - left)
    }
}

/// The lowest of so many actions, often 0.
fn first_of(random: &mut Random, actions: usize) -> usize {
    if random.percent(50) {
        0
    } else {
        random.between(0, 32 - actions)
    }
}

/// A number of records from 1 to 64, often small, at times 64.
fn record_count(random: &mut Random) -> usize {
    match random.below(10) {
        0..=2 => random.between(1, 8),
        3..=6 => random.between(1, 24),
        7..=8 => random.between(1, 64),
        _ => random.between(60, 64),
    }
}

/// A contract that is taken.
pub fn good(random: &mut Random) -> Vec<u8> {
    match random.below(100) {
        0 | 1 => many_deadlines(random),
        2..=21 => lasting_untils(random),
        _ => {
            let records = record_count(random);
            of_records(random, records, 0)
        }
    }
}

/// A contract of at most so many records that is taken.
pub fn short(random: &mut Random, most: usize) -> Vec<u8> {
    let records = random.between(1, most);
    of_records(random, records, 0)
}

/// Deadlines joined with each other, mostly as many as 64 records can have.
fn many_deadlines(random: &mut Random) -> Vec<u8> {
    let mut style = Style::random(random, 0);
    style.literals = &[10];
    style.fields.windows = random.pick(&[SHORT, ALL, LONGEST, LONGEST]);
    let deadlines = random.pick(&[32, 32, 31, 24, 16]);
    let mut out = Vec::new();
    joined(random, &style, deadlines, &mut out);
    if random.percent(50) {
        push(&mut out, 7, 0, 0);
    }
    out
}

/// So many literals under `both`, `then` and `repair` alone.
fn joined(random: &mut Random, style: &Style, literals: usize, out: &mut Vec<u8>) {
    if literals == 1 {
        return clause(random, style, 1, out);
    }
    let (left, right) = style.split(random, literals);
    joined(random, style, left, out);
    joined(random, style, right, out);
    push(out, random.pick(style.joins), 0, 0);
}

/// An `until` on few actions, at times beside another or begun later, of a clause that often lasts
/// for many periods: so an expression may be accepted by many a stretch.
fn lasting_untils(random: &mut Random) -> Vec<u8> {
    let mut style = Style::random(random, 0);
    style.fields.actions = random.between(1, 3);
    style.fields.first = random.pick(&[0, 0, 0, 0, 0, 0, 13, 29]);
    style.fields.windows = random.pick(&[MIDDLING, ALL, LONGEST]);
    style.literals = random.pick(&[&[1, 2, 3, 10], &[2, 3], &[3, 10], &[10]]);
    let operator = random.pick(&[0, 0, 0, 0, 0, 4, 5, 5, 6, 8]);
    let mut out = Vec::new();
    match operator {
        4 => lasting_until(random, &style, 0, &mut out),
        5 | 6 => clause(random, &style, 1, &mut out),
        8 => guard(random, &style, 1, &mut out),
        _ => {}
    }
    let inner = random.below(2);
    lasting_until(random, &style, inner, &mut out);
    if operator > 0 {
        push(&mut out, operator, 0, 0);
    }
    if random.percent(25) {
        push(&mut out, 7, 0, 0);
    }
    out
}

/// An `until` with so many others inside: at most 22 records, and 17 more for each of these.
fn lasting_until(random: &mut Random, style: &Style, inner: usize, out: &mut Vec<u8>) {
    if inner > 0 {
        lasting_until(random, style, inner - 1, out);
    } else {
        let records = random.pick(&[1, 1, 1, 2, 3, 4, 5]);
        clause(random, style, records, out);
    }
    if random.percent(85) {
        push(out, 7, 0, 0);
    }
    if random.percent(15) {
        let records = random.between(1, 7);
        guard(random, style, records, out);
    } else {
        parts(random, style, out);
    }
    push(out, 9, 0, 0);
}

/// An expression of two to six parts, one after the other: a period each, between the first and the
/// last at times any number of them. Many parts hold in every period, or are the one before again,
/// so that a stretch often begins while another is under way.
fn parts(random: &mut Random, style: &Style, out: &mut Vec<u8>) {
    let parts = random.pick(&[2, 3, 4, 4, 5, 6]);
    let mut part = Vec::new();
    for number in 1..=parts {
        if number == 1 || random.percent(75) {
            part.clear();
            if number < parts && random.percent(30) {
                push(&mut part, 16, 0, 0);
            } else {
                expression(random, style, 1, false, &mut part);
            }
        }
        out.extend(&part);
        if 1 < number && number < parts && random.percent(20) {
            push(out, 23, 0, 0);
        }
        if number > 1 {
            push(out, 21, 0, 0);
        }
    }
}

/// A contract whose records fit together, with the empty list now and then where it mustn't be.
pub fn with_empty_lists(random: &mut Random) -> Vec<u8> {
    let records = record_count(random);
    of_records(random, records, 40)
}

/// A contract of so many records; at times `repeat`, `when` or `until` is on top.
fn of_records(random: &mut Random, records: usize, empty: usize) -> Vec<u8> {
    let style = Style::random(random, empty);
    let mut out = Vec::new();
    match random.below(6) {
        0 | 1 if records >= 2 => {
            clause(random, &style, records - 1, &mut out);
            push(&mut out, 7, 0, 0);
        }
        2 if records >= 3 => when(random, &style, records, &mut out),
        3 if records >= 3 => until(random, &style, records, &mut out),
        4 if records >= 4 => {
            // A repeat under an until lives until the expression is accepted.
            let (left, right) = style.split(random, records - 2);
            clause(random, &style, left, &mut out);
            push(&mut out, 7, 0, 0);
            guard(random, &style, right, &mut out);
            push(&mut out, 9, 0, 0);
        }
        _ => clause(random, &style, records, &mut out),
    }
    out
}

fn push(out: &mut Vec<u8>, kind: u8, party: u8, action: u8) {
    out.extend([0x54, 0x43, kind, party, action, 0]);
}

/// A record of that kind with good fields.
fn push_kind(random: &mut Random, fields: &Fields, kind: u8, out: &mut Vec<u8>) {
    let uses = kind_of(kind).expect("a known kind");
    let party = match uses.parties {
        Parties::None => 0,
        Parties::One => random.pick(&[1, 2]),
        Parties::OneOrBoth => random.pick(fields.owners),
    };
    let action = (fields.first + random.below(fields.actions)) as u8;
    let window = random.pick(fields.windows);
    let field = |used: bool, value: u8| if used { value } else { 0 };
    out.extend([0x54, 0x43, kind, party]);
    out.extend([field(uses.action, action), field(uses.window, window)]);
}

fn clause(random: &mut Random, style: &Style, records: usize, out: &mut Vec<u8>) {
    match records {
        1 => {
            let kind = random.pick(style.literals);
            push_kind(random, &style.fields, kind, out);
        }
        2 => {
            clause(random, style, 1, out);
            push(out, 7, 0, 0);
        }
        _ if random.percent(style.chain) => {
            clause(random, style, records - 1, out);
            push(out, 7, 0, 0);
        }
        _ if random.percent(style.expressions) => {
            if random.percent(50) {
                when(random, style, records, out);
            } else {
                until(random, style, records, out);
            }
        }
        _ => {
            let (left, right) = style.split(random, records - 1);
            clause(random, style, left, out);
            clause(random, style, right, out);
            push(out, random.pick(style.joins), 0, 0);
        }
    }
}

fn when(random: &mut Random, style: &Style, records: usize, out: &mut Vec<u8>) {
    let (left, right) = style.split(random, records - 1);
    guard(random, style, left, out);
    clause(random, style, right, out);
    push(out, 8, 0, 0);
}

fn until(random: &mut Random, style: &Style, records: usize, out: &mut Vec<u8>) {
    let (left, right) = style.split(random, records - 1);
    clause(random, style, left, out);
    guard(random, style, right, out);
    push(out, 9, 0, 0);
}

/// An expression for under `when` or `until`.
fn guard(random: &mut Random, style: &Style, records: usize, out: &mut Vec<u8>) {
    let may_hold_empty = random.percent(style.empty);
    expression(random, style, records, may_hold_empty, out);
}

/// An expression, without the empty list unless it may be held.
fn expression(
    random: &mut Random,
    style: &Style,
    records: usize,
    may_hold_empty: bool,
    out: &mut Vec<u8>,
) {
    if records == 2 && !may_hold_empty {
        // No expression of two records is without the empty list; one record too few instead.
        return expression(random, style, 1, may_hold_empty, out);
    }
    match records {
        1 => {
            let kind = random.between(16, 20) as u8;
            push_kind(random, &style.fields, kind, out);
        }
        _ if may_hold_empty && (records == 2 || random.percent(style.chain.max(25))) => {
            expression(random, style, records - 1, true, out);
            push(out, 23, 0, 0);
        }
        _ => {
            let (left, right) = style.split(random, records - 1);
            if random.percent(30) {
                expression(random, style, left, may_hold_empty, out);
                expression(random, style, right, may_hold_empty, out);
                push(out, 22, 0, 0);
            } else {
                let left_without = random.percent(50);
                expression(random, style, left, may_hold_empty || !left_without, out);
                expression(random, style, right, may_hold_empty || left_without, out);
                push(out, 21, 0, 0);
            }
        }
    }
}

/// Four actions, every owner and every window.
fn four_actions(random: &mut Random) -> Fields {
    Fields {
        first: first_of(random, 4),
        actions: 4,
        owners: &[1, 2, 3],
        windows: ALL,
    }
}

/// Records with good marks that may fit together or not: known kinds mostly, good fields mostly.
pub fn soup(random: &mut Random) -> Vec<u8> {
    let records = random.pick(&[0, 1, 2, 3, 4, 5, 6, 8, 12, 20, 63, 64, 65, 66]);
    let fitting = random.percent(70);
    let faults = random.pick(&[0, 0, 3, 10]);
    let fields = four_actions(random);
    let mut out = Vec::new();
    let mut completed = 0;
    for _ in 0..records {
        let kind = loop {
            let kind = &KINDS[random.below(KINDS.len())];
            if !fitting || kind.operands.len() <= completed {
                break kind;
            }
        };
        completed = completed.saturating_sub(kind.operands.len()) + 1;
        push_kind(random, &fields, kind.number, &mut out);
        if random.percent(faults) {
            damage_field(random, &mut out);
        }
    }
    out
}

/// Records that fit together, with many operands before their operators: leaves, then operators for
/// what stands on top. Often not just one clause is left.
fn many_pending(random: &mut Random) -> Vec<u8> {
    let most = random.between(9, MAX_RECORDS);
    let leaves = random.pick(&[64, 64, 63, 33, 32, 32, most, most]);
    let records = random
        .pick(&[leaves, 2 * leaves - 1, 63, 64])
        .clamp(leaves, MAX_RECORDS);
    let clauses = random.pick(&[100, 100, 90, 50, 0]);
    let fields = four_actions(random);
    let mut pending: Vec<Sort> = Vec::new();
    let mut out = Vec::new();
    for number in 0..records {
        let kind = if number < leaves {
            leaf(random, clauses)
        } else {
            operator(random, &pending)
        };
        pending.truncate(pending.len() - kind.operands.len());
        pending.push(kind.completes);
        push_kind(random, &fields, kind.number, &mut out);
    }
    out
}

/// A kind without operands, with this chance one of clauses.
fn leaf(random: &mut Random, clauses: usize) -> &'static Kind {
    let completes = if random.percent(clauses) {
        Sort::Clause
    } else {
        Sort::Expression
    };
    some_kind(random, |kind| {
        kind.operands.is_empty() && kind.completes == completes
    })
}

/// An operator for what stands on top of the pending operands, mostly one that takes two.
fn operator(random: &mut Random, pending: &[Sort]) -> &'static Kind {
    let fits = |kind: &Kind, operands: usize| {
        kind.operands.len() == operands && pending.ends_with(kind.operands)
    };
    let two = pending.len() > 1 && random.percent(95);
    some_kind(random, |kind| fits(kind, if two { 2 } else { 1 }))
}

/// One of the kinds that are such.
fn some_kind(random: &mut Random, such: impl Fn(&Kind) -> bool) -> &'static Kind {
    let kinds: Vec<&Kind> = KINDS.iter().filter(|kind| such(kind)).collect();
    random.pick(&kinds)
}

/// The most operands that are pending at once while a contract is read, before the record at fault
/// where there is one.
pub fn most_pending(contract: &[u8]) -> usize {
    let passed = match read(contract) {
        Ok(_) => contract.len() / RECORD,
        Err(refusal) => refusal.place as usize,
    };
    let (mut pending, mut most) = (0, 0);
    for record in contract.chunks_exact(RECORD).take(passed) {
        let kind = kind_of(record[2]).expect("a record that passed");
        pending = pending - kind.operands.len() + 1;
        most = most.max(pending);
    }
    most
}

/// Changes one byte after the mark of the last record.
fn damage_field(random: &mut Random, out: &mut [u8]) {
    let last = out.len() - RECORD;
    match random.below(5) {
        0 => out[last + 2] = random.byte(),
        1 => out[last + 2] = random.pick(&[10, 11]),
        2 => out[last + 3] = random.below(5) as u8,
        3 => out[last + 4] = action(random),
        _ => out[last + 5] = last_byte(random),
    }
}

/// An action at the limits, or any byte.
fn action(random: &mut Random) -> u8 {
    if random.percent(75) {
        random.pick(&[0, 15, 16, 31, 32, 33])
    } else {
        random.byte()
    }
}

/// A last byte at the limits of windows, or any.
fn last_byte(random: &mut Random) -> u8 {
    if random.percent(75) {
        random.pick(&[0, 1, 15, 16])
    } else {
        random.byte()
    }
}

/// Where some record of such a kind begins, if there is one.
fn some_of(random: &mut Random, bytes: &[u8], such: fn(u8) -> bool) -> Option<usize> {
    let all: Vec<usize> = (0..bytes.len() / RECORD)
        .map(|number| number * RECORD)
        .filter(|at| such(bytes[at + 2]))
        .collect();
    (!all.is_empty()).then(|| random.pick(&all))
}

fn uses_party(kind: u8) -> bool {
    kind_of(kind).is_some_and(|kind| kind.parties != Parties::None)
}

fn uses_action(kind: u8) -> bool {
    kind_of(kind).is_some_and(|kind| kind.action)
}

/// Whether a record names an upper action.
pub fn names_upper(record: &[u8]) -> bool {
    record[..2] == CONTRACT_MARK && uses_action(record[2]) && UPPER.contains(&record[4])
}

/// A contract with one to three faults, which may turn out to be none.
pub fn damaged(random: &mut Random) -> Vec<u8> {
    let mut bytes = match random.below(8) {
        0 => return soup(random),
        1 => return with_empty_lists(random),
        2 => return many_pending(random),
        3 => with_empty_lists(random),
        4 => many_pending(random),
        _ => good(random),
    };
    for _ in 0..random.between(1, 3) {
        damage(random, &mut bytes);
    }
    bytes
}

/// One fault in records of six bytes.
pub fn damage(random: &mut Random, bytes: &mut Vec<u8>) {
    if bytes.len() < RECORD {
        return bytes.extend(random.bytes(RECORD));
    }
    let records = bytes.len() / RECORD;
    let at = random.below(records) * RECORD;
    let other = random.below(records) * RECORD;
    let record = bytes[at..at + RECORD].to_vec();
    let mut some = |such| some_of(random, bytes, such).unwrap_or(at);
    let deadline = some(|kind| kind == 10);
    let duty = some(|kind| kind == 1);
    let with_party = some(uses_party);
    let with_action = some(uses_action);
    match random.below(19) {
        0 => {
            let byte = random.below(bytes.len());
            bytes[byte] ^= 1 << random.below(8);
        }
        1 => drop(bytes.drain(at..at + RECORD)),
        2 => drop(bytes.splice(other..other, record)),
        3 => {
            for byte in 0..RECORD {
                bytes.swap(at + byte, other + byte);
            }
        }
        4 => bytes.truncate(random.below(bytes.len() + 1)),
        5 => bytes.extend(random.some_bytes(1, 7)),
        6 => bytes[at + random.below(2)] = random.byte(),
        7 => bytes[at + 2] = random.byte(),
        8 => bytes[at + 2] = random.between(0, 24) as u8,
        9 => bytes[at + 3] = random.below(5) as u8,
        10 => bytes[at + 4] = action(random),
        11 => bytes[with_action + 4] = action(random),
        12 => bytes[at + 5] = last_byte(random),
        13 => bytes[deadline + 5] = last_byte(random),
        14 => bytes[deadline + 2] = 11,
        15 => {
            bytes[at + 2] = 10;
            bytes[at + 5] = last_byte(random);
        }
        16 => bytes[duty + 3] = 4,
        // Both parties, which a duty alone may name.
        17 => bytes[with_party + 3] = 3,
        _ => {
            // 64 or 65 records, by repeats on top.
            let most = random.between(64, 65);
            while bytes.len() < most * RECORD {
                push(bytes, 7, 0, 0);
            }
        }
    }
}

#[cfg(test)]
mod tests {
    use super::*;
    use reference::contract::sum_of_windows;
    use reference::{Clause, Owner};
    use std::collections::BTreeSet;

    #[test]
    fn good_contracts_are_taken() {
        for seed in 0..20000 {
            let contract = good(&mut Random::new(seed));
            assert!(read(&contract).is_ok(), "seed {seed}: {contract:02x?}");
        }
    }

    #[test]
    fn all_lengths_and_kinds_come_up() {
        let contracts: Vec<Vec<u8>> = (0..20000)
            .map(|seed| good(&mut Random::new(seed)))
            .collect();
        for records in 1..=64 {
            assert!(contracts
                .iter()
                .any(|contract| contract.len() == records * RECORD));
        }
        for kind in &KINDS {
            let has = |contract: &&Vec<u8>| contract.chunks(RECORD).any(|r| r[2] == kind.number);
            assert!(
                contracts.iter().filter(has).count() > 1000,
                "kind {}",
                kind.number
            );
        }
    }

    #[test]
    fn pending_operands_are_counted() {
        let duty = [0x54, 0x43, 1, 1, 0, 0];
        let record = |kind: u8| match kind {
            1 => duty,
            _ => [0x54, 0x43, kind, 0, 0, 0],
        };
        let contract = |kinds: &[u8]| kinds.iter().copied().flat_map(record).collect();
        let most = |kinds: &[u8]| -> usize {
            let bytes: Vec<u8> = contract(kinds);
            most_pending(&bytes)
        };
        assert_eq!(most(&[]), 0);
        assert_eq!(most(&[7, 1]), 0, "a repeat without its operand");
        assert_eq!(most(&[1, 7, 7]), 1);
        assert_eq!(most(&[1, 1, 4, 1, 4]), 2);
        assert_eq!(most(&[1, 1, 1, 4, 4]), 3);
        assert_eq!(most(&[1, 1, 11, 1]), 2, "an unknown kind");
        assert_eq!(most(&[1, 1, 23, 1]), 2, "a star over a clause");
        assert_eq!([most(&[1; 64]), most(&[1; 65])], [64, 0]);
        assert_eq!(most_pending(&duty[..5]), 0, "a bad length");
    }

    #[test]
    fn all_counts_of_pending_operands_come_up() {
        let contracts: Vec<Vec<u8>> = (0..20000)
            .map(|seed| damaged(&mut Random::new(seed)))
            .collect();
        for pending in 1..=MAX_RECORDS {
            let has = |contract: &Vec<u8>| most_pending(contract) == pending;
            assert!(contracts.iter().any(has), "{pending}");
        }
        // With 32 or fewer there can be one clause.
        let many = |taken| {
            (0..2000)
                .map(|seed| many_pending(&mut Random::new(seed)))
                .filter(|contract| read(contract).is_ok() == taken)
                .map(|contract| most_pending(&contract))
                .max()
        };
        assert_eq!((many(true), many(false)), (Some(32), Some(64)));
    }

    /// An operator's kind and the number of its operand; 0 and 0 for the whole contract.
    type Place = (u8, usize);

    /// Adds the places of such clauses in a clause at a place.
    fn add_places(
        clause: &Clause,
        place: Place,
        such: fn(&Clause) -> bool,
        places: &mut BTreeSet<Place>,
    ) {
        if such(clause) {
            places.insert(place);
        }
        let (kind, operands) = match clause {
            Clause::Both(left, right) => (4, vec![left, right]),
            Clause::Then(left, right) => (5, vec![left, right]),
            Clause::Repair(left, right) => (6, vec![left, right]),
            Clause::Repeat(each) => (7, vec![each]),
            Clause::When(_, then) => (8, vec![then]),
            Clause::Until(own, _) => (9, vec![own]),
            _ => return,
        };
        for (number, operand) in operands.into_iter().enumerate() {
            add_places(operand, (kind, number), such, places);
        }
    }

    /// That such clauses stand wherever a clause may.
    fn stand_everywhere(such: fn(&Clause) -> bool) {
        let mut places = BTreeSet::new();
        for seed in 0..1000 {
            let contract = good(&mut Random::new(seed));
            let clause = read(&contract).expect("a good contract");
            add_places(&clause, (0, 0), such, &mut places);
        }
        let binary = [4, 5, 6]
            .into_iter()
            .flat_map(|kind| [(kind, 0), (kind, 1)]);
        let all = binary.chain([(0, 0), (7, 0), (8, 0), (9, 0)]);
        assert_eq!(places, all.collect());
    }

    #[test]
    fn deadlines_stand_wherever_a_clause_may() {
        stand_everywhere(|clause| matches!(clause, Clause::Deadline(..)));
    }

    #[test]
    fn joint_duties_stand_wherever_a_clause_may() {
        stand_everywhere(|clause| matches!(clause, Clause::Duty(Owner::Both, _)));
    }

    #[test]
    fn untils_stand_wherever_a_clause_may() {
        stand_everywhere(|clause| matches!(clause, Clause::Until(..)));
    }

    #[test]
    fn lasting_untils_fit_in_64_records() {
        let lengths = (0..20000).map(|seed| lasting_untils(&mut Random::new(seed)).len() / RECORD);
        assert!(lengths
            .max()
            .is_some_and(|most| (50..=MAX_RECORDS).contains(&most)));
    }

    #[test]
    fn duties_of_every_owner_come_up() {
        let mut owners = [0; 3];
        for seed in 0..2000 {
            let contract = good(&mut Random::new(seed));
            for duty in contract.chunks(RECORD).filter(|record| record[2] == 1) {
                owners[usize::from(duty[3]) - 1] += 1;
            }
        }
        let all: usize = owners.iter().sum();
        assert!(owners.iter().all(|count| 5 * count > all), "{owners:?}");
    }

    #[test]
    fn every_action_comes_up() {
        let mut actions = [0; 32];
        for seed in 0..2000 {
            let contract = good(&mut Random::new(seed));
            let records = contract.chunks(RECORD);
            for record in records.filter(|record| uses_action(record[2])) {
                actions[usize::from(record[4])] += 1;
            }
        }
        assert!(actions.iter().all(|count| *count > 50), "{actions:?}");
    }

    #[test]
    fn upper_actions_are_named() {
        for kind in 0..=255 {
            let named = |byte| names_upper(&[0x54, 0x43, kind, 1, byte, 0]);
            let uses = matches!(kind, 1 | 2 | 3 | 10 | 17..=20);
            assert_eq!([16, 31].map(named), [uses; 2], "kind {kind}");
            assert_eq!([0, 15, 32, 255].map(named), [false; 4], "kind {kind}");
        }
        assert!(!names_upper(&[0x54, 0x44, 1, 1, 16, 0]), "another mark");
    }

    /// The kind of the records at which damaged contracts are refused by 4, and that byte of them.
    fn refused_with(byte: usize) -> BTreeSet<(u8, u8)> {
        let mut refused = BTreeSet::new();
        for seed in 0..20000 {
            let contract = damaged(&mut Random::new(seed));
            if let Err(refusal) = read(&contract) {
                if refusal.number == 4 {
                    let at = refusal.place as usize * RECORD;
                    refused.insert((contract[at + 2], contract[at + byte]));
                }
            }
        }
        refused
    }

    #[test]
    fn damage_reaches_actions() {
        let refused = refused_with(4);
        for kind in KINDS.iter().filter(|kind| kind.action) {
            for action in [32, 33] {
                let fault = (kind.number, action);
                assert!(refused.contains(&fault), "kind and action {fault:?}");
            }
        }
    }

    #[test]
    fn damage_reaches_parties() {
        let refused = refused_with(3);
        let of_both = KINDS
            .iter()
            .filter(|kind| kind.parties == Parties::One)
            .map(|kind| (kind.number, 3));
        for fault in of_both.chain([(1, 0), (1, 4)]) {
            assert!(refused.contains(&fault), "kind and party {fault:?}");
        }
    }

    #[test]
    fn windows_of_all_lengths_and_sums_come_up() {
        let mut windows = BTreeSet::new();
        let mut sums = BTreeSet::new();
        for seed in 0..20000 {
            let contract = good(&mut Random::new(seed));
            let deadlines = contract.chunks(RECORD).filter(|record| record[2] == 10);
            windows.extend(deadlines.map(|record| record[5]));
            sums.insert(sum_of_windows(&contract));
        }
        assert_eq!(windows, (1..=15).collect());
        // 32 deadlines of window 15.
        assert_eq!(sums.last(), Some(&480));
    }

    #[test]
    fn damage_reaches_windows_and_last_bytes() {
        let mut seen = BTreeSet::new();
        for seed in 0..20000 {
            let contract = damaged(&mut Random::new(seed));
            for record in contract.chunks_exact(RECORD) {
                seen.insert((record[2], record[5]));
            }
        }
        for window in [0, 1, 15, 16] {
            assert!(seen.contains(&(10, window)), "window {window}");
        }
        for kind in KINDS.iter().map(|kind| kind.number).chain([11]) {
            assert!(
                seen.iter().any(|seen| seen.0 == kind && seen.1 > 0),
                "kind {kind}"
            );
        }
    }
}
