//! Short logs: every pair of at most three records on few numbers, with bad ones among them, bytes
//! that are no whole record, and every trace buffer up to some bytes more than are needed.

use crate::cases::{Call, Case, Family, Start};
use crate::logs;
use crate::short::lists;
use reference::calls::SHORT_REPLY;
use reference::logs::joined;
use reference::records::{LOG_MARK, NARROW_MARK};

/// What records are made of: the mark and the number. The first number is period 0.
const RECORDS: [([u8; 2], u16); 6] = [
    (LOG_MARK, 0),
    (LOG_MARK, 1),
    (LOG_MARK, 2),
    (LOG_MARK, 3),
    (LOG_MARK, 4),
    (NARROW_MARK, 2),
];

/// How many bytes more than are needed a trace buffer has at most.
const MORE: usize = 11;

/// Party 1 tries action 0, party 2 action 31: violated by the first alone, satisfied by both.
const IMAGE: [u8; 48] = [
    0x54, 0x52, 2, 0, 1, 0, 0, 0, // row 0: party 1 tries action 0
    0x54, 0x52, 2, 0, 2, 0, 31, 0, // row 1: party 2 tries action 31
    0x54, 0x52, 4, 0, 0, 0, 1, 0, // row 2: rows 0 and 1
    0x54, 0x52, 3, 0, 1, 0, 0, 0, // row 3: not row 1
    0x54, 0x52, 4, 0, 0, 0, 3, 0, // row 4: rows 0 and 3
    0x54, 0x45, 2, 0, 4, 0, 4, 0, // S is row 2, V1 and V2 row 4
];

/// Every pair of logs, with every trace buffer where both are good.
pub fn cases() -> impl Iterator<Item = Case> {
    let [mut ones, mut twos] = [1, 2].map(|party| logs(party, 3));
    let whole = pairs(&ones, &twos);
    ones.retain(|log| log.len() <= 2 * logs::RECORD);
    twos.retain(|log| log.len() <= 2 * logs::RECORD);
    let cut = pairs(&cut(&ones), &twos)
        .into_iter()
        .chain(pairs(&ones, &cut(&twos)));
    whole.into_iter().chain(cut).flat_map(|logs| {
        let buffers = match joined(&logs[0], &logs[1]) {
            Ok(periods) => (0..=10 * periods.len() + MORE).collect(),
            Err(_) => vec![0, 40],
        };
        buffers.into_iter().map(move |trace| case(&logs, trace))
    })
}

fn case(logs: &[Vec<u8>; 2], trace: usize) -> Case {
    Case {
        family: Family::Logs,
        fill: 1,
        start: Start::Image {
            bytes: IMAGE.to_vec(),
            state: Vec::new(),
        },
        calls: vec![Call::Join {
            logs: logs.clone(),
            trace,
            reply: SHORT_REPLY,
        }],
    }
}

fn pairs(ones: &[Vec<u8>], twos: &[Vec<u8>]) -> Vec<[Vec<u8>; 2]> {
    let with = |one: &Vec<u8>| -> Vec<[Vec<u8>; 2]> {
        twos.iter().map(|two| [one.clone(), two.clone()]).collect()
    };
    ones.iter().flat_map(with).collect()
}

/// Every log of that party of at most so many records. The attempts of a record tell its number, its
/// place and the party.
fn logs(party: u8, most: usize) -> Vec<Vec<u8>> {
    let log = |records: &Vec<([u8; 2], u16)>| {
        let record = |(at, (mark, number)): (u8, &([u8; 2], u16))| {
            let [low, high] = number.to_le_bytes();
            let attempts = [low & 1, 0x10 * at, party, 0x80 * (low >> 1 & 1) + low];
            [&mark[..], &[low, high], &attempts].concat()
        };
        (1..).zip(records).flat_map(record).collect()
    };
    lists(&RECORDS, most).iter().map(log).collect()
}

/// Each of the logs with one to seven bytes more, the first of a record.
fn cut(logs: &[Vec<u8>]) -> Vec<Vec<u8>> {
    const RECORD: [u8; 7] = [0x54, 0x4c, 5, 0, 1, 0, 0];
    let longer = |log: &Vec<u8>| -> Vec<Vec<u8>> {
        let with = |more: usize| [&log[..], &RECORD[..more]].concat();
        (1..=RECORD.len()).map(with).collect()
    };
    logs.iter().flat_map(longer).collect()
}

#[cfg(test)]
mod tests {
    use super::*;
    use std::collections::BTreeSet;

    fn calls() -> impl Iterator<Item = ([Vec<u8>; 2], usize)> {
        cases().flat_map(|case| case.calls).map(|call| match call {
            Call::Join { logs, trace, .. } => (logs, trace),
            _ => panic!("every call is a join"),
        })
    }

    /// Every place in both logs.
    #[test]
    fn every_place_is_refused() {
        let refused = |(logs, _): ([Vec<u8>; 2], usize)| joined(&logs[0], &logs[1]).err();
        let seen: BTreeSet<(u32, u64)> = calls()
            .filter_map(refused)
            .map(|refusal| (refusal.number, refusal.place))
            .collect();
        let all = [0, 65536].map(|log| {
            let records = (0..3).map(move |record| (14, log + record));
            records.chain((1..3).map(move |record| (15, log + record)))
        });
        assert_eq!(seen, all.into_iter().flatten().collect());
    }

    /// A bad length of one log where the other is good, for either log.
    #[test]
    fn either_length_is_refused() {
        for bad in 0..2 {
            let lone = |logs: &[Vec<u8>; 2]| {
                !logs[bad].len().is_multiple_of(8) && joined(&logs[1 - bad], &logs[1 - bad]).is_ok()
            };
            let met: BTreeSet<(u32, u64)> = calls()
                .filter(|(logs, _)| lone(logs))
                .filter_map(|(logs, _)| joined(&logs[0], &logs[1]).err())
                .map(|refusal| (refusal.number, refusal.place))
                .collect();
            assert_eq!(met, BTreeSet::from([(14, 0)]), "log {}", bad + 1);
        }
    }

    /// All sets of at most three of the numbers 1 to 4, for either party.
    #[test]
    fn every_pair_of_good_logs_is_there_with_every_buffer() {
        let mut pairs = BTreeSet::new();
        let mut tried = BTreeSet::new();
        for (logs, trace) in calls() {
            if let Ok(periods) = joined(&logs[0], &logs[1]) {
                tried.insert((periods.len(), trace));
                pairs.insert(logs);
            }
        }
        assert_eq!(pairs.len(), 15 * 15);
        let buffers = |periods: usize| (0..=10 * periods + MORE).map(move |n| (periods, n));
        assert_eq!(tried, (0..=4).flat_map(buffers).collect());
    }
}
