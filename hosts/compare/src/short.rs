//! Short traces: every length up to 21 bytes, every damaged mark, mixtures of the forms, given to
//! step, run and decide and read by the wrapper.

use crate::cases::{Call, Case, Family, Start};
use crate::traces::BLOCK;
use reference::calls::{DECIDE_REPLY, LONG_REPLY, SHORT_REPLY};
use reference::contract::least_buffer;
use reference::records::{CONTRACT_MARK, NARROW_MARK, WIDE_MARK};
use reference::Form;
use std::collections::BTreeSet;

/// A repeated duty on the lowest action, one on the highest, and a ban on an upper one.
const CONTRACTS: [&[u8]; 3] = [
    &[0x54, 0x43, 1, 1, 0, 0, 0x54, 0x43, 7, 0, 0, 0],
    &[0x54, 0x43, 1, 3, 31, 0, 0x54, 0x43, 7, 0, 0, 0],
    &[0x54, 0x43, 2, 2, 16, 0],
];

/// The marks of both forms, and another one.
const MARKS: [[u8; 2]; 3] = [NARROW_MARK, WIDE_MARK, CONTRACT_MARK];

/// Nobody tries anything; both try everything.
const ATTEMPTS: [u8; 2] = [0x00, 0xff];

/// Every trace with every contract.
pub fn cases() -> impl Iterator<Item = Case> {
    let case = |contract: &[u8], trace: &[u8]| Case {
        family: Family::Contracts,
        fill: 1,
        start: Start::Contract {
            bytes: contract.to_vec(),
            buffer: least_buffer(contract),
            reply: SHORT_REPLY,
        },
        calls: calls(trace),
    };
    let traces = traces().into_iter();
    traces.flat_map(move |trace| CONTRACTS.map(|contract| case(contract, &trace)))
}

/// Step and run each get a state just begun.
fn calls(trace: &[u8]) -> Vec<Call> {
    let begin = Call::Begin { reply: SHORT_REPLY };
    let step = Call::Step {
        period: trace.to_vec(),
        reply: LONG_REPLY,
    };
    let run = Call::Run {
        trace: trace.to_vec(),
        reply: LONG_REPLY,
    };
    let decide = Call::Decide {
        trace: trace.to_vec(),
        reply: DECIDE_REPLY,
    };
    vec![begin.clone(), step, begin, run, decide]
}

fn traces() -> BTreeSet<Vec<u8>> {
    let mut traces = BTreeSet::new();
    for attempts in ATTEMPTS {
        let record = |mark: [u8; 2], bytes: usize| {
            let mut record = vec![attempts; bytes];
            record[..2].copy_from_slice(&mark);
            record
        };
        for bytes in Form::ALL.map(Form::record_bytes) {
            for marks in lists(&MARKS, 5) {
                let trace: Vec<u8> = marks.iter().flat_map(|mark| record(*mark, bytes)).collect();
                traces.extend((0..=trace.len().min(21)).map(|length| trace[..length].to_vec()));
                traces.insert(trace);
            }
        }
        let of_form = |form: Form| record(form.mark(), form.record_bytes());
        for forms in lists(&Form::ALL, 7) {
            traces.insert(forms.iter().flat_map(|form| of_form(*form)).collect());
        }
        let block = |form: Form| of_form(form).repeat(BLOCK / form.record_bytes());
        for forms in lists(&Form::ALL, 4) {
            traces.insert(forms.iter().flat_map(|form| block(*form)).collect());
        }
        for form in Form::ALL {
            for records in 1..=4 {
                insert_damaged(&of_form(form), records, &mut traces);
            }
        }
    }
    traces
}

/// So many of these records, with every other byte in either place of every mark.
fn insert_damaged(record: &[u8], records: usize, traces: &mut BTreeSet<Vec<u8>>) {
    for start in (0..records).map(|number| number * record.len()) {
        for at in [start, start + 1] {
            for byte in 0..=255 {
                let mut trace = record.repeat(records);
                trace[at] = byte;
                traces.insert(trace);
            }
        }
    }
}

/// All lists of up to so many of these.
pub fn lists<T: Copy>(items: &[T], most: usize) -> Vec<Vec<T>> {
    let mut all = vec![vec![]];
    let mut from = 0;
    for _ in 0..most {
        let longer: Vec<Vec<T>> = all[from..]
            .iter()
            .flat_map(|list| items.iter().map(|item| [&list[..], &[*item]].concat()))
            .collect();
        from = all.len();
        all.extend(longer);
    }
    all
}

#[cfg(test)]
mod tests {
    use super::*;
    use reference::records::read_trace;

    #[test]
    fn lists_are_all_there() {
        assert_eq!(lists(&[0, 1], 2).len(), 1 + 2 + 4);
        assert!(lists(&[0, 1, 2], 3).contains(&vec![2, 0, 1]));
    }

    #[test]
    fn every_length_comes_up_in_both_forms() {
        let traces = traces();
        for length in 0..=21 {
            let of_length = || traces.iter().filter(|trace| trace.len() == length);
            for form in Form::ALL {
                let starts = |trace: &Vec<u8>| Form::of_mark(trace) == Some(form);
                assert_eq!(of_length().any(starts), length >= 2, "{length}");
            }
            assert!(
                of_length().any(|trace| Form::of_mark(trace).is_none()),
                "{length}"
            );
        }
    }

    /// Refused there, in a trace of either form: by a mark of the other form, and by another one.
    #[test]
    fn every_place_is_refused_by_either_mark() {
        let mut seen = BTreeSet::new();
        for trace in traces() {
            if let (Some(form), Err(refusal)) = (Form::of_mark(&trace), read_trace(&trace)) {
                let record = &trace[refusal.place as usize * form.record_bytes()..];
                let is_other = Form::of_mark(record) == Some(form.other());
                seen.insert((form as usize, refusal.place, is_other));
            }
        }
        for form in 0..2 {
            for place in 1..5 {
                for is_other in [false, true] {
                    let sort = (form, place, is_other);
                    assert!(seen.contains(&sort), "{sort:?}");
                }
            }
        }
    }
}
