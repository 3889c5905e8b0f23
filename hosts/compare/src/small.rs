//! Every small contract, with windows that short lists outlast, on every short list of periods,
//! through the Rust wrapper, whose steps take wide records, and decide on narrow ones of each list
//! that is just decided or stays undecided.

use monitor::{calls, Blame, Image, Monitor, Period};
use reference::calls::DECIDE_REPLY;
use reference::records::four_bytes;
use reference::{contract, Decision, Verdict};
use std::num::NonZeroU32;

/// How long the lists are: after the decision only one period more is looked at.
const PERIODS: usize = 4;

/// The windows of the contracts' deadlines.
const WINDOWS: [u8; 2] = [2, 3];

/// A contract record of action 0.
fn record(kind: u8, party: u8) -> Vec<u8> {
    vec![0x54, 0x43, kind, party, 0, 0]
}

/// The record of a deadline on action 0.
fn deadline(party: u8, window: u8) -> Vec<u8> {
    vec![0x54, 0x43, 10, party, 0, window]
}

/// All records of these kinds, each with either party.
fn of_parties(kinds: &[u8]) -> Vec<Vec<u8>> {
    let each = |kind: &u8| [record(*kind, 1), record(*kind, 2)];
    kinds.iter().flat_map(each).collect()
}

/// What of each sort can be spelled with so many records.
struct Spelled {
    clauses: Vec<Vec<u8>>,
    expressions: Vec<Vec<u8>>,
}

fn one_record() -> Spelled {
    let mut clauses = of_parties(&[1, 2, 3]);
    // A joint duty.
    clauses.push(record(1, 3));
    for window in WINDOWS {
        clauses.extend([deadline(1, window), deadline(2, window)]);
    }
    let mut expressions = of_parties(&[17, 18]);
    expressions.extend([16, 19, 20].map(|kind| record(kind, 0)));
    Spelled {
        clauses,
        expressions,
    }
}

/// Both operands and the operator, for each pair.
fn join(left: &[Vec<u8>], right: &[Vec<u8>], kind: u8, to: &mut Vec<Vec<u8>>) {
    for one in left {
        for two in right {
            to.push([one.as_slice(), two, &record(kind, 0)].concat());
        }
    }
}

/// Of one record more than `shorter` has entries, `shorter[n]` having n + 1 records.
fn one_more(shorter: &[Spelled]) -> Spelled {
    let mut clauses = Vec::new();
    let mut expressions = Vec::new();
    if let Some(last) = shorter.last() {
        join(&last.clauses, &[vec![]], 7, &mut clauses);
        join(&last.expressions, &[vec![]], 23, &mut expressions);
    }
    for (left, right) in shorter.iter().zip(shorter.iter().rev().skip(1)) {
        for kind in [4, 5, 6] {
            join(&left.clauses, &right.clauses, kind, &mut clauses);
        }
        join(&left.expressions, &right.clauses, 8, &mut clauses);
        join(&left.clauses, &right.expressions, 9, &mut clauses);
        for kind in [21, 22] {
            join(
                &left.expressions,
                &right.expressions,
                kind,
                &mut expressions,
            );
        }
    }
    Spelled {
        clauses,
        expressions,
    }
}

/// How many calls were made.
#[derive(Default)]
struct Made {
    steps: u64,
    decides: u64,
}

/// Follows every list of `left` periods more after those of the trace.
fn follow(
    product: &Monitor,
    meant: &reference::Monitor,
    trace: &[u8],
    left: usize,
    made: &mut Made,
) -> Result<(), String> {
    if left == 0 {
        return Ok(());
    }
    for (one, two) in [(0, 0), (0, 1), (1, 0), (1, 1)] {
        let (mut product, mut meant) = (product.clone(), meant.clone());
        let next = Period::from_masks(one, two);
        meant.step(one, two);
        let came = product.step(next);
        made.steps += 1;
        let expected = (
            meant.verdict().number(),
            u32::from(meant.blame()),
            meant.decision_period() as u32,
        );
        let same = came.is_ok_and(|reply| {
            let blame = reply.blame.map_or(0, Blame::number);
            let decision = reply.decision.map_or(0, NonZeroU32::get);
            (reply.verdict.number(), blame, decision) == expected
        });
        let period = format!("{one}/{two}");
        if !same {
            return Err(format!("{period}: expected {expected:?}, came {came:?}"));
        }
        let trace = [trace, &[0x54, 0x50, one as u8, 0, two as u8, 0]].concat();
        let left = match meant.decision() {
            Decision::Undecided => left - 1,
            _ => (left - 1).min(1),
        };
        if let (Verdict::Met | Verdict::Broken, _) | (Verdict::Open, 0) = (meant.verdict(), left) {
            decide(product.image(), &meant, &trace, made)
                .map_err(|differs| format!("{period}: {differs}"))?;
        }
        follow(&product, &meant, &trace, left, made).map_err(|rest| format!("{period} {rest}"))?;
    }
    Ok(())
}

/// Compares decide; a decided list goes on with what is no period record.
fn decide(
    image: &Image,
    meant: &reference::Monitor,
    trace: &[u8],
    made: &mut Made,
) -> Result<(), String> {
    let mut trace = trace.to_vec();
    if meant.decision() != Decision::Undecided {
        trace.extend([0; 6]);
    }
    let mut reply = [0xff; DECIDE_REPLY];
    let result = calls::decide(image.as_bytes(), &trace, &mut reply);
    made.decides += 1;
    let came = [0, 4, 8, 12, 16, 20, 24, 28].map(|at| four_bytes(&reply, at));
    let [outcome, blame] = [meant.decision().outcome(), meant.blame()].map(u32::from);
    let [decision, read] = [meant.decision_period(), meant.periods()].map(|count| count as u32);
    let expected = [0, outcome, 0, 0, blame, decision, read, 0];
    if (result, came) != (1, expected) {
        return Err(format!(
            "expected {expected:?} of decide, came {result}, {came:?}"
        ));
    }
    Ok(())
}

/// Compares one contract.
fn check(bytes: &[u8], made: &mut Made) -> Result<(), String> {
    match (contract::read(bytes), Image::compile(bytes)) {
        (Ok(clause), Ok(image)) => {
            let meant = reference::Monitor::new(&clause);
            decide(&image, &meant, &[], made)?;
            follow(&Monitor::begin(&image), &meant, &[], PERIODS, made)
        }
        (Err(expected), Err(came))
            if (u64::from(expected.number), expected.place)
                == (u64::from(came.fault.number()), came.place) =>
        {
            Ok(())
        }
        (expected, came) => Err(format!(
            "expected {:?}, came {:?}",
            expected.map(|_| "taken"),
            came.map(|_| "taken")
        )),
    }
}

/// Compares every contract of at most so many records; false after a difference, which is printed.
pub fn compare(records: usize) -> bool {
    let mut spelled = Vec::new();
    let (mut contracts, mut made) = (0, Made::default());
    for n in 1..=records {
        let next = if n == 1 {
            one_record()
        } else {
            one_more(&spelled)
        };
        for bytes in &next.clauses {
            contracts += 1;
            if let Err(difference) = check(bytes, &mut made) {
                println!("contract {bytes:02x?}: {difference}");
                return false;
            }
        }
        spelled.push(next);
    }
    println!(
        "every contract of at most {records} records on one action, with windows of {WINDOWS:?}: \
         {contracts}, {} steps, {} decides",
        made.steps, made.decides
    );
    true
}

#[cfg(test)]
mod tests {
    use super::*;
    use std::collections::BTreeSet;

    #[test]
    fn every_good_record_without_operands_is_spelled() {
        let spelled = one_record();
        let all: BTreeSet<Vec<u8>> = [spelled.clauses, spelled.expressions]
            .concat()
            .into_iter()
            .collect();
        // A lone expression is refused, with 6.
        let is_good = |bytes: &[u8]| match contract::read(bytes) {
            Ok(_) => true,
            Err(refusal) => refusal.number == 6,
        };
        let mut good = BTreeSet::new();
        for kind in 0..=255 {
            for party in 0..=255 {
                for window in [0].into_iter().chain(WINDOWS) {
                    let bytes = vec![0x54, 0x43, kind, party, 0, window];
                    if is_good(&bytes) {
                        good.insert(bytes);
                    }
                }
            }
        }
        assert_eq!(all, good);
    }
}
