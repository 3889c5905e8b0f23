//! Random logs: pairs of good ones, and damaged ones.

use crate::random::Random;
use reference::logs::{LogRecord, LOG_RECORD_BYTES, MAX_LOG_RECORDS};
use reference::records::two_bytes;
use reference::{Form, Period};

/// Bytes of a log record.
pub const RECORD: usize = LOG_RECORD_BYTES;

/// The most periods that short logs reach over, and middling ones.
pub const MAX_SHORT: usize = 100;
pub const MAX_MIDDLING: usize = 1000;

/// How many periods the logs of a case reach over, mostly few. Now and then they are as many as a
/// number can tell.
pub fn length(random: &mut Random) -> usize {
    match random.below(1000) {
        0..=649 => random.below(17),
        650..=949 => random.below(MAX_SHORT + 1),
        950..=995 => random.below(MAX_MIDDLING + 1),
        996 => random.between(MAX_MIDDLING, MAX_LOG_RECORDS),
        _ => random.between(MAX_LOG_RECORDS - 1, MAX_LOG_RECORDS),
    }
}

/// Which periods two logs have.
#[derive(Clone, Copy)]
enum Numbers {
    Each,
    Same,
    Disjoint,
    Independent,
    OneEmpty,
}

/// Two logs of these periods' attempts. Which periods a log lacks is drawn.
pub fn of_periods(random: &mut Random, periods: &[Period]) -> [Vec<u8>; 2] {
    let numbers = random.pick(&[
        Numbers::Each,
        Numbers::Same,
        Numbers::Disjoint,
        Numbers::Disjoint,
        Numbers::Independent,
        Numbers::Independent,
        Numbers::Independent,
        Numbers::OneEmpty,
    ]);
    // In 1,000 periods.
    let few = if periods.len() > MAX_SHORT { 2 } else { 200 };
    let chances = [0; 2].map(|_| random.pick(&[few, 500, 500, 900, 1000]));
    let is_exchanged = random.percent(50);
    let mut logs = [Vec::new(), Vec::new()];
    for (number, period) in (1..=u16::MAX).zip(periods) {
        let [one, two] = chances.map(|chance| random.below(1000) < chance);
        let mut has = match numbers {
            Numbers::Each => [true, true],
            Numbers::Same => [one, one],
            Numbers::Disjoint => [one, two && !one],
            Numbers::Independent => [one, two],
            Numbers::OneEmpty => [one, false],
        };
        if is_exchanged {
            has.reverse();
        }
        for ((log, has), attempts) in logs.iter_mut().zip(has).zip([period.one, period.two]) {
            if has {
                push(log, number, attempts);
            }
        }
    }
    logs
}

fn push(log: &mut Vec<u8>, period: u16, attempts: u32) {
    log.extend(LogRecord { period, attempts }.record());
}

/// The number of each record.
pub fn numbers(log: &[u8]) -> impl Iterator<Item = u16> + '_ {
    log.chunks_exact(RECORD).map(|record| two_bytes(record, 2))
}

/// Lowers the numbers from that one on.
pub fn lower(log: &mut [u8], from: u16, by: u16) {
    for record in log.chunks_exact_mut(RECORD) {
        let number = two_bytes(record, 2);
        if number >= from {
            record[2..4].copy_from_slice(&(number - by).to_le_bytes());
        }
    }
}

/// The bytes of the trace that good logs are joined to.
pub fn trace_bytes(logs: &[Vec<u8>; 2]) -> usize {
    let last = logs.each_ref().map(|log| numbers(log).last().unwrap_or(0));
    Form::Wide.record_bytes() * usize::from(last[0].max(last[1]))
}

/// A length of a trace buffer near the one that is needed: that one, a byte less, longer ones.
pub fn buffer(random: &mut Random, need: usize) -> usize {
    match random.below(12) {
        0..=3 => need,
        4 => need.saturating_sub(1),
        5 => need.saturating_sub(Form::Wide.record_bytes()),
        6 => random.below(need + 1),
        7 => random.below(22),
        8 => need + 1,
        9 => need + Form::Wide.record_bytes(),
        _ => need + random.below(50),
    }
}

/// Faults in one of the logs or in both, mostly; in many pairs only numbers that don't rise.
pub fn damage(random: &mut Random, logs: &mut [Vec<u8>; 2]) {
    let hit = random.pick(&[[true, false], [false, true], [true, true]]);
    let in_order_only = random.percent(40);
    for (log, _) in logs.iter_mut().zip(hit).filter(|(_, hit)| *hit) {
        for _ in 0..random.between(1, 2) {
            match log.len() / RECORD {
                0 if in_order_only => {}
                records if in_order_only => disorder(random, log, records),
                records => damage_log(random, log, records),
            }
        }
    }
}

/// A log of so many whole records with a bad length, a bad mark, period 0 or numbers that don't
/// rise, mostly.
fn damage_log(random: &mut Random, log: &mut Vec<u8>, records: usize) {
    match random.below(12) {
        0 => log.extend(random.some_bytes(1, 9)),
        1 => log.truncate(random.below(log.len() + 1)),
        2 if random.percent(15) => overfill(random, log),
        3 => *log = random.some_bytes(0, 40),
        _ if records == 0 => push(log, 0, random.next() as u32),
        4..=6 => spoil_mark(random, log, records),
        7..=9 => set_number(log, random.below(records), 0),
        _ => disorder(random, log, records),
    }
}

/// Numbers that don't rise, mostly: a record gets another number, is there twice, or changes its
/// place with another.
fn disorder(random: &mut Random, log: &mut Vec<u8>, records: usize) {
    let [one, two] = [0; 2].map(|_| random.below(records));
    match random.below(5) {
        0 => set_number(log, one, (random.next() as u16).max(1)),
        1 => {
            let copy = log[one * RECORD..][..RECORD].to_vec();
            log.splice(two * RECORD..two * RECORD, copy);
        }
        2 => {
            for at in 0..RECORD {
                log.swap(one * RECORD + at, two * RECORD + at);
            }
        }
        _ => lower_number(random, log, records),
    }
}

fn spoil_mark(random: &mut Random, log: &mut [u8], records: usize) {
    let at = random.below(records) * RECORD;
    if random.percent(50) {
        log[at] = random.byte();
    } else {
        log[at + 1] = random.pick(&[0x43, 0x45, 0x4b, 0x4d, 0x50, 0x51, 0x52, 0]);
    }
}

fn set_number(log: &mut [u8], record: usize, number: u16) {
    log[record * RECORD + 2..][..2].copy_from_slice(&number.to_le_bytes());
}

/// A record gets the number of the one before it, or a lower one; if it is the first, the next
/// one's.
fn lower_number(random: &mut Random, log: &mut [u8], records: usize) {
    let at = random.below(records);
    let other = at.checked_sub(1).unwrap_or(records.min(2) - 1);
    let number = two_bytes(log, other * RECORD + 2);
    let less = random.pick(&[0, 0, 1, 2]);
    set_number(log, at, number.saturating_sub(less).max(1));
}

/// More records than a log may have, or as many, and at times bytes that are none.
fn overfill(random: &mut Random, log: &mut Vec<u8>) {
    let records = MAX_LOG_RECORDS + random.pick(&[0, 0, 1, 1, 2, 1000]);
    log.clear();
    for number in 0..records {
        push(log, (number + 1) as u16, random.next() as u32);
    }
    if random.percent(20) {
        log.extend(random.some_bytes(1, 9));
    }
}

#[cfg(test)]
mod tests {
    use super::*;
    use reference::logs::joined;
    use std::collections::BTreeSet;

    const TRIED: Period = Period { one: 1, two: 2 };

    #[test]
    fn logs_of_periods_are_good() {
        for seed in 0..500 {
            let random = &mut Random::new(seed);
            let periods = vec![TRIED; random.below(40)];
            let logs = of_periods(random, &periods);
            let joined = joined(&logs[0], &logs[1]).expect("good logs");
            assert_eq!(joined.len() * 10, trace_bytes(&logs));
            assert!(joined.len() <= periods.len());
            let is_part = |p: &Period| p.one & !TRIED.one == 0 && p.two & !TRIED.two == 0;
            assert!(joined.iter().all(is_part));
        }
    }

    /// Both empty, one empty, the same numbers, some in common, none.
    #[test]
    fn logs_of_every_sort_come_up() {
        let mut counts = [0; 5];
        for seed in 0..1000 {
            let logs = of_periods(&mut Random::new(seed), &[TRIED; 6]);
            let [one, two] = logs.map(|log| numbers(&log).collect::<BTreeSet<u16>>());
            let sort = match (one.is_empty(), two.is_empty()) {
                (true, true) => 0,
                (true, _) | (_, true) => 1,
                _ if one == two => 2,
                _ if !one.is_disjoint(&two) => 3,
                _ => 4,
            };
            counts[sort] += 1;
        }
        assert!(counts.iter().all(|count| *count > 10), "{counts:?}");
    }

    #[test]
    fn lengths_of_every_sort_come_up() {
        let mut counts = [0; 5];
        for seed in 0..20000 {
            let sort = match length(&mut Random::new(seed)) {
                0 => 0,
                1..=MAX_SHORT => 1,
                records if records <= MAX_MIDDLING => 2,
                MAX_LOG_RECORDS => 4,
                _ => 3,
            };
            counts[sort] += 1;
        }
        assert!(counts.iter().all(|count| *count > 10), "{counts:?}");
    }

    /// The refusals of damaged logs of four records, by number and place.
    fn refusals() -> BTreeSet<(u32, u64)> {
        let mut seen = BTreeSet::new();
        for seed in 0..5000 {
            let random = &mut Random::new(seed);
            let mut logs = [Vec::new(), Vec::new()];
            for log in &mut logs {
                (1..5).for_each(|number| push(log, number, 0));
            }
            damage(random, &mut logs);
            if let Err(refusal) = joined(&logs[0], &logs[1]) {
                seen.insert((refusal.number, refusal.place));
            }
        }
        seen
    }

    #[test]
    fn damage_stands_at_every_place_of_both_logs() {
        let seen = refusals();
        for log in [0, 65536] {
            for record in 0..4 {
                assert!(seen.contains(&(14, log + record)), "{log} {record}");
            }
            for record in 1..4 {
                assert!(seen.contains(&(15, log + record)), "{log} {record}");
            }
        }
    }

    #[test]
    fn logs_of_the_most_records_and_of_more_come_up() {
        let mut seen = BTreeSet::new();
        for seed in 0..40 {
            let mut log = Vec::new();
            overfill(&mut Random::new(seed), &mut log);
            let refused = joined(&log, &[]).err();
            let place = refused.map(|refusal| refusal.place);
            seen.insert((log.len() / RECORD, log.len() % RECORD > 0, place));
        }
        for sort in [
            (65535, false, None),
            (65535, true, Some(0)),
            (65536, false, Some(0)),
            (65537, false, Some(0)),
        ] {
            assert!(seen.contains(&sort), "{sort:?}");
        }
    }

    #[test]
    fn numbers_are_lowered() {
        let mut log = Vec::new();
        for number in [1, 300, 301, 65535] {
            push(&mut log, number, 7);
        }
        lower(&mut log, 300, 298);
        assert_eq!(numbers(&log).collect::<Vec<u16>>(), [1, 2, 3, 65237]);
        lower(&mut log, 65237, 1);
        assert_eq!(numbers(&log).last(), Some(65236));
    }
}
