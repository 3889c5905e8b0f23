//! Makes an input that shows a difference smaller, greedily: each change is kept while the
//! difference remains.

use crate::cases::{Call, Case, Start};
use crate::images::{rows_of, ROW};
use crate::logs;
use crate::traces::record_bytes;
use crate::watch::split;
use reference::contract::{kind_of, least_buffer};
use reference::Form;
use std::collections::BTreeSet;

/// Most changes that are tried; one of a long case counts as several.
const MAX_TRIED: usize = 60000;
/// The bytes of a case that count as one more.
const LONG_CASE: usize = 50000;

/// What is dropped of traces: wide records, narrow ones, bytes.
const TRACE_UNITS: [usize; 3] = [Form::Wide.record_bytes(), Form::Narrow.record_bytes(), 1];

struct Shrinker<'a, T> {
    now: T,
    differs: &'a mut dyn FnMut(&T) -> bool,
    /// How long a candidate is, in bytes.
    bytes: fn(&T) -> usize,
    tried: usize,
    most: usize,
    changed: bool,
}

impl<T> Shrinker<'_, T> {
    /// Whether no more changes are tried.
    fn is_spent(&self) -> bool {
        self.tried >= self.most
    }

    /// Keeps the candidate if it still differs.
    fn offer(&mut self, candidate: T) -> bool {
        if self.is_spent() {
            return false;
        }
        self.tried += 1 + (self.bytes)(&candidate) / LONG_CASE;
        let keeps = (self.differs)(&candidate);
        if keeps {
            self.now = candidate;
            self.changed = true;
        }
        keeps
    }
}

/// A smaller case that differs.
pub fn case(case: Case, differs: &mut dyn FnMut(&Case) -> bool) -> Case {
    let mut s = Shrinker {
        now: case,
        differs,
        bytes: lent_bytes,
        tried: 0,
        most: MAX_TRIED,
        changed: true,
    };
    while s.changed && !s.is_spent() {
        s.changed = false;
        drop_calls(&mut s);
        match s.now.start {
            Start::Contract { .. } => shrink_contract(&mut s),
            Start::Image { .. } => shrink_image(&mut s),
        }
        for call in 0..s.now.calls.len() {
            shrink_call(&mut s, call);
        }
        zero_bytes(&mut s);
    }
    s.now
}

/// A smaller input of `watch` that differs.
pub fn input(input: Vec<u8>, differs: &mut dyn FnMut(&Vec<u8>) -> bool) -> Vec<u8> {
    let mut s = Shrinker {
        now: input,
        differs,
        bytes: Vec::len,
        tried: 0,
        most: 6000,
        changed: true,
    };
    while s.changed && !s.is_spent() {
        s.changed = false;
        quiet_periods(&mut s);
        while replace_in_input(&mut s) {}
        lower_fields(&mut s, |input| input);
        for unit in TRACE_UNITS {
            drop_parts(&mut s, unit, |input| input);
        }
        for at in 0..s.now.len() {
            if s.now[at] != 0 {
                let mut candidate = s.now.clone();
                candidate[at] = 0;
                s.offer(candidate);
            }
        }
    }
    s.now
}

/// Puts an operand in the place of what an operator of the contract completes.
fn replace_in_input(s: &mut Shrinker<Vec<u8>>) -> bool {
    let (contract, trace) = split(&s.now);
    let candidates: Vec<Vec<u8>> = smaller_trees(contract)
        .into_iter()
        .map(|smaller| [&smaller, trace].concat())
        .collect();
    candidates.into_iter().any(|candidate| s.offer(candidate))
}

/// Takes the attempts out of many period records at once, and then of few.
fn quiet_periods(s: &mut Shrinker<Vec<u8>>) {
    let (contract, trace) = split(&s.now);
    let (start, record_bytes) = (contract.len(), record_bytes(trace));
    let mut size = trace.len() / record_bytes;
    while size > 0 {
        for from in (start..s.now.len()).step_by(size * record_bytes) {
            let mut candidate = s.now.clone();
            let to = (from + size * record_bytes).min(candidate.len());
            for record in candidate[from..to].chunks_exact_mut(record_bytes) {
                if Form::of_mark(record).is_some() {
                    record[2..].fill(0);
                }
            }
            if candidate != s.now {
                s.offer(candidate);
            }
        }
        size /= 2;
    }
}

/// Drops parts of `unit` elements of a list, many at once and then few.
fn drop_parts<T: Clone, E>(s: &mut Shrinker<T>, unit: usize, list: impl Fn(&mut T) -> &mut Vec<E>) {
    let mut size = list(&mut s.now).len() / unit / 2;
    loop {
        let mut at = 0;
        while (at + 1) * unit <= list(&mut s.now).len() && !s.is_spent() {
            let mut candidate = s.now.clone();
            let elements = list(&mut candidate);
            let to = ((at + size.max(1)) * unit).min(elements.len());
            elements.drain(at * unit..to);
            if !s.offer(candidate) {
                at += size.max(1);
            }
        }
        if size <= 1 {
            return;
        }
        size /= 2;
    }
}

/// Plain duties in the place of joint ones, of party 1 where that will do, and the shortest windows
/// of deadlines that will do.
fn lower_fields<T: Clone>(s: &mut Shrinker<T>, contract: impl Fn(&mut T) -> &mut Vec<u8>) {
    for number in 0..contract(&mut s.now).len() / 6 {
        let record = number * 6;
        let at = match contract(&mut s.now)[record + 2] {
            1 => record + 3,
            10 => record + 5,
            _ => continue,
        };
        for value in 1..contract(&mut s.now)[at] {
            let mut candidate = s.now.clone();
            contract(&mut candidate)[at] = value;
            if s.offer(candidate) {
                break;
            }
        }
    }
}

fn drop_calls(s: &mut Shrinker<Case>) {
    drop_parts(s, 1, |case| &mut case.calls);
}

fn start_bytes(case: &mut Case) -> &mut Vec<u8> {
    match &mut case.start {
        Start::Contract { bytes, .. } | Start::Image { bytes, .. } => bytes,
    }
}

/// For each record of a contract the first record of what it completes, and of its operands; none
/// if the records don't fit together.
fn spans(contract: &[u8]) -> Option<Vec<Vec<usize>>> {
    let mut stack: Vec<usize> = Vec::new();
    let mut spans = Vec::new();
    for (number, record) in contract.chunks_exact(6).enumerate() {
        let operands = kind_of(record[2])?.operands.len();
        let mut starts = stack.split_off(stack.len().checked_sub(operands)?);
        if starts.is_empty() {
            starts.push(number);
        }
        stack.push(starts[0]);
        spans.push(starts);
    }
    Some(spans)
}

fn shrink_contract(s: &mut Shrinker<Case>) {
    while replace_by_operand(s) {}
    drop_parts(s, 6, start_bytes);
    lower_fields(s, start_bytes);
    if let Start::Contract { bytes, buffer, .. } = &s.now.start {
        let (least, buffer) = (least_buffer(bytes), *buffer);
        for lengths in [(least, 16), (0, 16), (buffer, 16)] {
            if offer_lengths(s, lengths) {
                return;
            }
        }
    }
}

/// Other lengths of the image buffer and compile's reply area; true if they are kept, or are those
/// already.
fn offer_lengths(s: &mut Shrinker<Case>, lengths: (usize, usize)) -> bool {
    let mut candidate = s.now.clone();
    if let Start::Contract { buffer, reply, .. } = &mut candidate.start {
        if (*buffer, *reply) == lengths {
            return true;
        }
        (*buffer, *reply) = lengths;
    }
    s.offer(candidate)
}

/// Contracts with an operand in the place of what an operator completes, the largest operators
/// first.
fn smaller_trees(contract: &[u8]) -> Vec<Vec<u8>> {
    let mut smaller = Vec::new();
    for (number, starts) in spans(contract).unwrap_or_default().iter().enumerate().rev() {
        let operands = starts.iter().filter(|start| **start < number).enumerate();
        for (operand, start) in operands {
            let end = starts.get(operand + 1).copied().unwrap_or(number);
            let before = &contract[..starts[0] * 6];
            let after = &contract[(number + 1) * 6..];
            smaller.push([before, &contract[start * 6..end * 6], after].concat());
        }
    }
    smaller
}

fn replace_by_operand(s: &mut Shrinker<Case>) -> bool {
    for smaller in smaller_trees(&start_bytes(&mut s.now).clone()) {
        let mut candidate = s.now.clone();
        if let Start::Contract { bytes, buffer, .. } = &mut candidate.start {
            if *buffer >= least_buffer(bytes) {
                *buffer = least_buffer(&smaller);
            }
            *bytes = smaller;
        }
        if s.offer(candidate) {
            return true;
        }
    }
    false
}

/// Drops rows, with their values in the state; the rows after them get lower numbers.
fn shrink_image(s: &mut Shrinker<Case>) {
    let mut number = rows_of(start_bytes(&mut s.now));
    while number > 0 {
        number -= 1;
        let mut candidate = s.now.clone();
        if let Start::Image { bytes, state } = &mut candidate.start {
            drop_row(bytes, state, number);
        }
        if !s.offer(candidate) {
            let mut candidate = s.now.clone();
            let bytes = start_bytes(&mut candidate);
            let row = &mut bytes[number * ROW..(number + 1) * ROW];
            if row != [0x54, 0x52, 0, 0, 0, 0, 0, 0] {
                row.copy_from_slice(&[0x54, 0x52, 0, 0, 0, 0, 0, 0]);
                s.offer(candidate);
            }
        }
    }
    drop_parts(s, 1, |case| match &mut case.start {
        Start::Contract { bytes, .. } => bytes,
        Start::Image { state, .. } => state,
    });
}

fn drop_row(bytes: &mut Vec<u8>, state: &mut Vec<u8>, number: usize) {
    bytes.drain(number * ROW..(number + 1) * ROW);
    if state.len() > 10 + number {
        state.remove(10 + number);
    }
    for row in bytes.chunks_exact_mut(ROW) {
        let fields: &[usize] = match (row[1], row[2]) {
            (0x52, 3 | 6) => &[4],
            (0x52, 4 | 5) => &[4, 6],
            (0x45, _) => &[2, 4, 6],
            _ => &[],
        };
        for at in fields {
            let named = u16::from_le_bytes([row[*at], row[*at + 1]]);
            if named as usize > number {
                row[*at..*at + 2].copy_from_slice(&(named - 1).to_le_bytes());
            }
        }
    }
}

/// Fewer records and an ample reply area.
fn shrink_call(s: &mut Shrinker<Case>, call: usize) {
    match s.now.calls[call] {
        Call::Run { .. } | Call::Decide { .. } => {
            for unit in TRACE_UNITS {
                drop_parts(s, unit, move |case| {
                    case.calls[call]
                        .records_mut()
                        .expect("the call has a trace")
                });
            }
        }
        Call::Join { .. } => shrink_join(s, call),
        Call::Begin { .. } | Call::Step { .. } => {}
    }
    let mut candidate = s.now.clone();
    let (reply, ample) = match &mut candidate.calls[call] {
        Call::Begin { reply } | Call::Join { reply, .. } => (reply, 16),
        Call::Step { reply, .. } | Call::Run { reply, .. } => (reply, 24),
        Call::Decide { reply, .. } => (reply, 32),
    };
    if *reply != ample {
        *reply = ample;
        s.offer(candidate);
    }
}

/// The logs of a join, and the length of its trace buffer.
fn join_parts(case: &mut Case, call: usize) -> (&mut [Vec<u8>; 2], &mut usize) {
    match &mut case.calls[call] {
        Call::Join { logs, trace, .. } => (logs, trace),
        _ => panic!("the call is a join"),
    }
}

/// Fewer records in either log, lower numbers, and a trace buffer of just the length.
fn shrink_join(s: &mut Shrinker<Case>, call: usize) {
    for log in 0..2 {
        for unit in [logs::RECORD, 1] {
            drop_parts(s, unit, move |case| &mut join_parts(case, call).0[log]);
        }
    }
    close_gaps(s, call);
    let mut candidate = s.now.clone();
    let (logs, trace) = join_parts(&mut candidate, call);
    let need = logs::trace_bytes(logs);
    if *trace != need {
        *trace = need;
        s.offer(candidate);
    }
}

/// Takes numbers that neither log has away, as many as will do, and as many records of the buffer.
fn close_gaps(s: &mut Shrinker<Case>, call: usize) {
    let (logs, _) = join_parts(&mut s.now, call);
    let numbers: BTreeSet<u16> = logs.iter().flat_map(|log| logs::numbers(log)).collect();
    let (mut before, mut lowered) = (0, 0);
    for number in numbers.into_iter().filter(|number| *number > 0) {
        let mut gap = number - before - 1;
        let mut step = gap;
        while step > 0 && !s.is_spent() {
            let mut candidate = s.now.clone();
            let (logs, trace) = join_parts(&mut candidate, call);
            for log in logs {
                logs::lower(log, number - lowered, step);
            }
            *trace = trace.saturating_sub(Form::Wide.record_bytes() * usize::from(step));
            if s.offer(candidate) {
                gap -= step;
                lowered += step;
                step = step.min(gap);
            } else {
                step /= 2;
            }
        }
        before = number;
    }
}

/// The lists of bytes in a case: the start's, the state, those of the calls.
fn byte_lists(case: &mut Case) -> Vec<&mut Vec<u8>> {
    let mut lists = match &mut case.start {
        Start::Contract { bytes, .. } => vec![bytes],
        Start::Image { bytes, state } => vec![bytes, state],
    };
    lists.extend(case.calls.iter_mut().flat_map(Call::given_mut));
    lists
}

/// The bytes that a case lends to join; those of other calls are few.
fn lent_bytes(case: &Case) -> usize {
    let of_call = |call: &Call| match call {
        Call::Join { logs, trace, .. } => logs[0].len() + logs[1].len() + trace,
        _ => 0,
    };
    case.calls.iter().map(of_call).sum()
}

fn zero_bytes(s: &mut Shrinker<Case>) {
    for list in 0..byte_lists(&mut s.now).len() {
        for at in 0..byte_lists(&mut s.now)[list].len() {
            if byte_lists(&mut s.now)[list][at] != 0 && !s.is_spent() {
                let mut candidate = s.now.clone();
                byte_lists(&mut candidate)[list][at] = 0;
                s.offer(candidate);
            }
        }
    }
}

#[cfg(test)]
mod tests {
    use super::*;
    use crate::cases::Family;
    use crate::watch::input_of_seed;

    /// A large random case that differs.
    fn large(differs: impl Fn(&Case) -> bool) -> Case {
        (1..)
            .map(Case::of_seed)
            .find(|case| case.calls.len() > 10 && differs(case))
            .expect("such a case is drawn")
    }

    /// Such a case made smaller.
    fn smaller(differs: fn(&Case) -> bool) -> Case {
        let smaller = case(large(differs), &mut |case| differs(case));
        assert!(differs(&smaller));
        smaller
    }

    /// Whether a case starts with a contract that has such a record.
    fn has(case: &Case, such: impl Fn(&[u8]) -> bool) -> bool {
        matches!(&case.start, Start::Contract { bytes, .. } if bytes.chunks_exact(6).any(such))
    }

    #[test]
    fn a_contract_and_a_trace_get_small() {
        let mut smaller = smaller(|case| {
            let long = |call: &Call| matches!(call, Call::Run { trace, .. } if trace.len() >= 12);
            has(case, |record| record[2] == 6) && case.calls.iter().any(long)
        });
        assert_eq!(smaller.calls.len(), 1);
        let lists = byte_lists(&mut smaller);
        assert_eq!(lists, [&[0, 0, 6, 0, 0, 0][..], &[0; 12]]);
    }

    #[test]
    fn a_window_gets_short() {
        let mut smaller = smaller(|case| has(case, |record| record[2] == 10 && record[5] >= 3));
        assert_eq!(byte_lists(&mut smaller), [&[0, 0, 10, 0, 0, 3]]);
    }

    #[test]
    fn a_joint_duty_gets_plain() {
        let is_duty = |record: &[u8]| record[2] == 1;
        let is_joint = |record: &[u8]| is_duty(record) && record[3] == 3;
        let found = large(|case| {
            has(case, is_joint) && !has(case, |record| is_duty(record) && record[3] < 3)
        });
        // Where the duty of one party differs too, but not that of the other.
        for party in [1, 2] {
            let differs =
                |case: &Case| has(case, |record| is_duty(record) && record[3] & party > 0);
            let mut smaller = case(found.clone(), &mut |case| differs(case));
            assert_eq!(byte_lists(&mut smaller), [&[0, 0, 1, party, 0, 0]]);
        }
        // Where only a joint duty differs.
        let mut smaller = case(found, &mut |case| has(case, is_joint));
        assert_eq!(byte_lists(&mut smaller), [&[0, 0, 1, 3, 0, 0]]);
    }

    #[test]
    fn a_decide_gets_small() {
        let smaller = smaller(|case| {
            let long = |trace: &[u8]| trace.len() >= 12 && trace.len().is_multiple_of(6);
            let decides = |call: &Call| matches!(call, Call::Decide { trace, .. } if long(trace));
            case.calls.iter().any(decides)
        });
        let [Call::Decide { trace, reply }] = &smaller.calls[..] else {
            panic!("a lone decide");
        };
        assert_eq!((trace.as_slice(), *reply), (&[0; 12][..], 32));
    }

    /// The logs and the lengths of a lone join.
    fn lone_join(case: &Case) -> ([&[u8]; 2], usize, usize) {
        let [Call::Join { logs, trace, reply }] = &case.calls[..] else {
            panic!("a lone join");
        };
        ([&logs[0], &logs[1]], *trace, *reply)
    }

    /// A random case with a join that differs, made smaller.
    fn smaller_join(differs: impl Fn(&[Vec<u8>; 2]) -> bool) -> Case {
        let differs = |case: &Case| {
            let join = |call: &Call| matches!(call, Call::Join { logs, .. } if differs(logs));
            case.calls.iter().any(join)
        };
        let found = (1..).map(Case::of_seed).find(differs);
        case(found.expect("such a case is drawn"), &mut |case| {
            differs(case)
        })
    }

    #[test]
    fn a_join_gets_small() {
        let smaller = smaller_join(|logs| logs[0].len() >= 24 && logs[1].len() >= 9);
        assert_eq!(lone_join(&smaller), ([&[0; 24][..], &[0; 9]], 0, 16));
    }

    #[test]
    fn numbers_get_low() {
        // Two records in either log, and a number above 300 that both have.
        let common = |logs: &[Vec<u8>; 2]| {
            let [one, two] = logs.each_ref().map(|log| {
                let numbers = logs::numbers(log);
                numbers.collect::<BTreeSet<u16>>()
            });
            let common = one.intersection(&two).any(|number| *number > 300);
            common && one.len() >= 2 && two.len() >= 2
        };
        let smaller = smaller_join(common);
        let ([one, two], trace, reply) = lone_join(&smaller);
        let lengths = [one.len(), two.len()];
        assert_eq!((lengths, reply), ([2 * logs::RECORD; 2], 16));
        let greatest = |log| logs::numbers(log).max();
        assert_eq!([one, two].map(greatest), [Some(301); 2]);
        assert_eq!(trace, logs::trace_bytes(&[one.to_vec(), two.to_vec()]));
    }

    #[test]
    fn long_cases_count_as_several() {
        let mut long = Case::of_seed(1);
        long.calls = vec![Call::Join {
            logs: [vec![0; 500_000], vec![0; 500_000]],
            trace: 600_000,
            reply: 16,
        }];
        let mut tried = 0;
        case(long, &mut |_| {
            tried += 1;
            false
        });
        // What is offered is shorter than the case.
        let least = MAX_TRIED / (1 + 1_600_000 / LONG_CASE);
        assert!((least..2 * least).contains(&tried), "{tried}");
    }

    #[test]
    fn an_image_and_a_state_get_small() {
        let mut smaller = smaller(|case| {
            let both = |row: &[u8]| row[1..3] == [0x52, 4];
            let step = |call: &Call| matches!(call, Call::Step { .. });
            matches!(&case.start, Start::Image { bytes, state }
                if bytes.chunks_exact(ROW).any(both) && state.len() >= 3)
                && case.family == Family::Images
                && case.calls.iter().any(step)
        });
        assert_eq!(smaller.calls.len(), 1);
        // The row of the image and its end.
        let image = [[0, 0x52, 4, 0, 0, 0, 0, 0], [0; ROW]].concat();
        let lists = byte_lists(&mut smaller);
        assert_eq!(lists[..2], [&image[..], &[0; 3]]);
    }

    #[test]
    fn an_input_gets_small() {
        for period in [
            &[0x54, 0x50, 0, 0, 0, 0][..],
            &[0x54, 0x51, 0, 0, 0, 0, 0, 0, 0, 0],
        ] {
            let differs = |input: &Vec<u8>| {
                let records = split(input).1.chunks_exact(period.len());
                records.filter(|record| record[..2] == period[..2]).count() >= 2
            };
            let found = (1..)
                .map(input_of_seed)
                .find(|input| (300..3000).contains(&input.len()) && differs(input))
                .expect("such an input is drawn");
            let smaller = input(found, &mut |input| differs(input));
            assert_eq!(smaller, [period, period].concat());
        }
    }
}
