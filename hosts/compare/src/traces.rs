//! Random periods and traces. The lower actions are 0 to 15, which records of both forms can hold;
//! the upper ones are 16 to 31, which wide records alone can.

use crate::random::Random;
use reference::records::read_trace;
use reference::{Clause, Decision, Form, Monitor, Period};
use std::ops::{Range, RangeInclusive};

/// The upper actions.
pub const UPPER: RangeInclusive<u8> = 16..=31;

/// The bytes of five narrow records, and of three wide ones.
pub const BLOCK: usize = 30;

/// The bytes of a trace's records, by the form of the first; those of narrow ones if it has none.
pub fn record_bytes(trace: &[u8]) -> usize {
    Form::of_mark(trace).unwrap_or(Form::Narrow).record_bytes()
}

/// The records of these periods. In narrow ones nobody tries an upper action.
pub fn bytes(form: Form, periods: &[Period]) -> Vec<u8> {
    periods.iter().flat_map(|p| p.record(form)).collect()
}

/// Whether the form's records can hold these periods.
fn can_hold(form: Form, periods: &[Period]) -> bool {
    let is_lower = |period: &Period| (period.one | period.two) >> 16 == 0;
    form == Form::Wide || periods.iter().all(is_lower)
}

/// The records of these periods in a form that can hold them.
pub fn in_some_form(random: &mut Random, periods: &[Period]) -> Vec<u8> {
    let form = random.pick(&Form::ALL);
    if can_hold(form, periods) {
        bytes(form, periods)
    } else {
        bytes(form.other(), periods)
    }
}

/// The trace of the other form with the same attempts, if there is one.
pub fn in_other_form(trace: &[u8]) -> Option<Vec<u8>> {
    let form = Form::of_mark(trace)?.other();
    let periods = read_trace(trace).ok()?;
    can_hold(form, &periods).then(|| bytes(form, &periods))
}

/// The periods of a trace's records, up to the first that isn't one of its form.
pub fn periods(trace: &[u8]) -> impl Iterator<Item = Period> + '_ {
    let records = trace.chunks(record_bytes(trace));
    records.map_while(|record| read_trace(record).ok()?.pop())
}

/// The mask of the first so many actions.
fn first(actions: usize) -> u32 {
    u32::MAX >> (32 - actions)
}

/// A period on the first `actions` actions, mostly; attempts coincide often.
pub fn period(random: &mut Random, actions: usize) -> Period {
    let mask = first(actions);
    let some = random.next() as u32 & mask;
    let many = (random.next() | random.next()) as u32 & mask;
    let (one, two) = match random.below(8) {
        0 => (mask, mask),
        1 => (0, 0),
        2 | 3 => (some, some),
        4 => (many, random.next() as u32 | many),
        5 => (many, some),
        6 => (some, many),
        _ => (random.next() as u32, random.next() as u32),
    };
    Period { one, two }
}

/// A period on the first `actions` actions in which none succeeds.
fn fruitless(random: &mut Random, actions: usize) -> Period {
    let mask = first(actions);
    let one = random.next() as u32 & mask;
    let two = random.next() as u32 & mask & !one;
    Period { one, two }
}

/// The period, with that chance without its attempts at upper actions.
fn lowered(random: &mut Random, chance: usize, period: Period) -> Period {
    let mask = first(if random.percent(chance) { 16 } else { 32 });
    Period {
        one: period.one & mask,
        two: period.two & mask,
    }
}

/// In how many of 100 periods of a list nobody tries an upper action.
fn lower_chance(random: &mut Random) -> usize {
    random.pick(&[0, 30, 100, 100])
}

/// Periods that leave the clause open with some chance, if a few draws find such ones, in some lists
/// those that satisfy it too; in many lists most are fruitless, so that windows end.
pub fn for_clause(random: &mut Random, clause: &Clause, length: usize) -> Vec<Period> {
    let care = random.pick(&[0, 50, 90, 98, 100]);
    let may_satisfy = random.percent(30);
    let failures = random.pick(&[0, 0, 50, 90, 100]);
    let actions = random.pick(&[1, 2, 3, 4, 16, 32, 32]);
    let lower = lower_chance(random);
    let mut monitor = Monitor::new(clause);
    let mut periods = Vec::with_capacity(length);
    for _ in 0..length {
        let drawn = if random.percent(failures) {
            fruitless(random, actions)
        } else {
            period(random, actions)
        };
        let mut next = lowered(random, lower, drawn);
        if random.percent(care) && monitor.decision() == Decision::Undecided {
            for _ in 0..8 {
                let mut tried = monitor.clone();
                tried.step(next.one, next.two);
                match tried.decision() {
                    Decision::Undecided => break,
                    Decision::Satisfied { .. } if may_satisfy => break,
                    _ => {}
                }
                let drawn = period(random, actions);
                next = lowered(random, lower, drawn);
            }
        }
        monitor.step(next.one, next.two);
        periods.push(next);
    }
    periods
}

/// Any periods.
pub fn any(random: &mut Random, length: usize) -> Vec<Period> {
    let actions = random.pick(&[1, 2, 4, 16, 32, 32]);
    let lower = lower_chance(random);
    (0..length)
        .map(|_| {
            let drawn = period(random, actions);
            lowered(random, lower, drawn)
        })
        .collect()
}

/// A length, mostly short.
pub fn length(random: &mut Random) -> usize {
    match random.below(10) {
        0..=2 => random.below(8),
        3..=7 => random.below(40),
        _ => random.below(400),
    }
}

/// Bytes that are no period record, mostly.
pub fn bad_period(random: &mut Random) -> Vec<u8> {
    let form = random.pick(&Form::ALL);
    let mut record = bytes(form, &[period(random, 32)]);
    match random.below(8) {
        0 | 1 => spoil_mark(random, &mut record),
        2 => record.truncate(random.below(record.len())),
        3 => record.extend(random.bytes(1)),
        4 => record.extend(bytes(random.pick(&Form::ALL), &[period(random, 32)])),
        5 => record = random.bytes(record.len()),
        _ => record = short(random),
    }
    record
}

/// Up to 21 bytes: the start of a trace, at times with bad marks.
pub fn short(random: &mut Random) -> Vec<u8> {
    let mut trace = bytes(random.pick(&Form::ALL), &any(random, 4));
    if random.percent(30) {
        spoil_some_marks(random, &mut trace);
    }
    trace.truncate(random.below(22));
    trace
}

/// A record with a bad mark, mostly.
fn spoil_mark(random: &mut Random, record: &mut [u8]) {
    match random.below(4) {
        0 | 1 => record[0] = random.byte(),
        // The other form's mark.
        2 => record[1] ^= 1,
        _ => record[1] = random.pick(&[0x43, 0x45, 0x52, 0x4f, 0]),
    }
}

/// A trace that has records, one or two of them with a bad mark, mostly.
fn spoil_some_marks(random: &mut Random, trace: &mut [u8]) {
    let record_bytes = record_bytes(trace);
    for _ in 0..random.between(1, 2) {
        let at = random.below(trace.len() / record_bytes) * record_bytes;
        spoil_mark(random, &mut trace[at..]);
    }
}

/// A trace with a record or several of the other form somewhere, or with such a mark.
fn mix(random: &mut Random, trace: &mut Vec<u8>) {
    let record_bytes = record_bytes(trace);
    let form = Form::of_mark(trace).map_or(Form::Wide, Form::other);
    let at = random.below(trace.len() / record_bytes + 1) * record_bytes;
    let records = match random.below(3) {
        0 if at + record_bytes <= trace.len() => {
            return trace[at..at + 2].copy_from_slice(&form.mark())
        }
        // So many that the length is one of either form.
        1 => BLOCK / form.record_bytes(),
        _ => 1,
    };
    trace.splice(at..at, bytes(form, &any(random, records)));
}

/// A trace with a bad mark, a record of the other form or a bad length, mostly.
pub fn damage(random: &mut Random, trace: &mut Vec<u8>) {
    match random.below(8) {
        0 => trace.extend(random.some_bytes(1, 9)),
        1 => trace.truncate(random.below(trace.len() + 1)),
        2 => trace.extend(bad_period(random)),
        3 => *trace = short(random),
        4 | 5 => mix(random, trace),
        _ if trace.len() >= record_bytes(trace) => spoil_some_marks(random, trace),
        _ => trace.extend(bad_period(random)),
    }
}

/// A trace for decide: these periods or the first of them, often with bad marks before the deciding
/// record, at it or after it, and at times with a bad length. The decision is the periods' decision
/// period, 0 for none.
pub fn to_decide(random: &mut Random, periods: &[Period], decision: usize) -> Vec<u8> {
    let kept = match random.below(8) {
        0 => decision.saturating_sub(1),
        1 => decision,
        2 => random.below(periods.len() + 1),
        _ => periods.len(),
    };
    let mut trace = in_some_form(random, &periods[..kept]);
    match random.below(10) {
        0..=2 => {}
        3 => damage(random, &mut trace),
        _ => spoil_marks(random, &mut trace, decision),
    }
    if random.percent(5) {
        trace.extend(random.some_bytes(1, 9));
    }
    trace
}

/// A bad mark before the deciding record, at it or after it, or anywhere if there is none; at times
/// with random bytes from the next record on.
fn spoil_marks(random: &mut Random, trace: &mut [u8], decision: usize) {
    let record_bytes = record_bytes(trace);
    let records = trace.len() / record_bytes;
    let deciding = if (1..=records).contains(&decision) {
        decision - 1..decision
    } else {
        records..records
    };
    let parts = [0..deciding.start, deciding.clone(), deciding.end..records];
    let parts: Vec<Range<usize>> = parts.into_iter().filter(|part| !part.is_empty()).collect();
    if parts.is_empty() {
        return;
    }
    let part = &parts[random.below(parts.len())];
    let at = random.between(part.start, part.end - 1) * record_bytes;
    let (record, later) = trace[at..].split_at_mut(record_bytes);
    spoil_mark(random, record);
    if random.percent(25) {
        later.copy_from_slice(&random.bytes(later.len()));
    }
}

#[cfg(test)]
mod tests {
    use super::*;
    use reference::{Owner, Party};
    use std::collections::BTreeSet;

    const QUIET: Period = Period { one: 0, two: 0 };

    #[test]
    fn a_trace_is_written_in_both_forms() {
        const NARROW: [u8; 12] = [0x54, 0x50, 1, 0x80, 2, 0, 0x54, 0x50, 0, 0, 0, 3];
        const WIDE: [u8; 20] = [
            0x54, 0x51, 1, 0x80, 0, 0, 2, 0, 0, 0, 0x54, 0x51, 0, 0, 0, 0, 0, 3, 0, 0,
        ];
        assert_eq!(in_other_form(&NARROW).unwrap(), WIDE);
        assert_eq!(in_other_form(&WIDE).unwrap(), NARROW);
        assert_eq!(
            periods(&NARROW).collect::<Vec<Period>>(),
            read_trace(&WIDE).unwrap()
        );
        // Where an upper action is tried, where the length or a mark is bad.
        for at in [4, 5, 8, 9, 10] {
            let mut trace = WIDE;
            trace[at] ^= 1;
            assert_eq!(in_other_form(&trace), None);
        }
        assert_eq!(in_other_form(&WIDE[..19]), None);
    }

    #[test]
    fn lists_with_and_without_upper_actions_come_up() {
        let clause = Clause::Ban(Party::One, 0);
        // By function: the lists with upper actions, and those without.
        let mut counts = [[0; 2]; 2];
        for seed in 0..1000 {
            let random = &mut Random::new(seed);
            let lists = [any(random, 4), for_clause(random, &clause, 4)];
            for (counts, periods) in counts.iter_mut().zip(lists) {
                counts[usize::from(can_hold(Form::Narrow, &periods))] += 1;
            }
        }
        let all = counts.as_flattened();
        assert!(all.iter().all(|count| *count > 250), "{counts:?}");
    }

    /// How many traces to decide ten quiet periods, with that decision period, have their first bad
    /// mark before the deciding record, at it, after it, and none; and how many have a bad length.
    fn traces_to_decide(decision: usize) -> [usize; 5] {
        let periods = [QUIET; 10];
        let mut counts = [0; 5];
        for seed in 0..1000 {
            let trace = to_decide(&mut Random::new(seed), &periods, decision);
            let has_form = Form::of_mark(&trace).is_some();
            let kind = match read_trace(&trace) {
                Err(_) if has_form && !trace.len().is_multiple_of(record_bytes(&trace)) => 4,
                Err(refusal) => match refusal.place as usize + 1 {
                    number if number < decision => 0,
                    number if number == decision => 1,
                    _ => 2,
                },
                Ok(_) => 3,
            };
            counts[kind] += 1;
        }
        counts
    }

    #[test]
    fn bad_marks_stand_before_at_and_after_the_deciding_record() {
        let often = |counts: &[usize]| counts.iter().all(|count| *count > 30);
        for decision in 2..10 {
            let counts = traces_to_decide(decision);
            assert!(often(&counts), "{decision} {counts:?}");
        }
        // No record is before the first.
        let counts = traces_to_decide(1);
        assert!(often(&counts[1..]), "{counts:?}");
    }

    #[test]
    fn traces_to_decide_end_before_at_and_after_the_deciding_record() {
        let periods = [QUIET; 10];
        // By records; longer traces aren't counted.
        let mut lengths = [0; 11];
        for seed in 0..1000 {
            let trace = to_decide(&mut Random::new(seed), &periods, 4);
            if let Some(count) = lengths.get_mut(trace.len() / record_bytes(&trace)) {
                *count += 1;
            }
        }
        assert!(lengths.iter().all(|count| *count > 5), "{lengths:?}");
        assert!(
            [3, 4, 10].iter().all(|length| lengths[*length] > 100),
            "{lengths:?}"
        );
    }

    /// In traces of either form, where length and earlier marks are good.
    #[test]
    fn records_of_the_other_form_stand_at_every_place() {
        let mut seen = BTreeSet::new();
        for seed in 0..10000 {
            let random = &mut Random::new(seed);
            let mut trace = in_some_form(random, &[QUIET; 8]);
            damage(random, &mut trace);
            if let (Some(form), Err(refusal)) = (Form::of_mark(&trace), read_trace(&trace)) {
                let record = &trace[refusal.place as usize * form.record_bytes()..];
                if Form::of_mark(record) == Some(form.other()) {
                    seen.insert((form as usize, refusal.place));
                }
            }
        }
        for form in Form::ALL {
            for place in 1..8 {
                assert!(seen.contains(&(form as usize, place)), "{form:?} {place}");
            }
        }
    }

    #[test]
    fn short_traces_of_every_length_come_up() {
        let mut seen = BTreeSet::new();
        for seed in 0..2000 {
            let trace = short(&mut Random::new(seed));
            let form = Form::of_mark(&trace).map(|form| form as usize);
            seen.insert((form, trace.len()));
        }
        for length in 2..22 {
            for form in [None, Some(0), Some(1)] {
                assert!(seen.contains(&(form, length)), "{form:?} {length}");
            }
        }
        assert!(seen.contains(&(None, 0)) && seen.contains(&(None, 1)));
        assert_eq!(seen.last(), Some(&(Some(1), 21)));
    }

    #[test]
    fn a_joint_duty_is_met_and_broken_with_every_blame() {
        for action in [0, 31] {
            let clause = Clause::Duty(Owner::Both, action);
            let mut blames = [0; 4];
            for seed in 0..1000 {
                let first = for_clause(&mut Random::new(seed), &clause, 1)[0];
                let mut monitor = Monitor::new(&clause);
                monitor.step(first.one, first.two);
                blames[usize::from(monitor.blame())] += 1;
            }
            let often = blames.iter().all(|count| *count > 10);
            assert!(often, "{action} {blames:?}");
        }
    }

    #[test]
    fn every_window_is_met_and_missed_in_its_last_period() {
        for window in 1..=15 {
            let clause = Clause::Deadline(Party::One, 0, window);
            let (mut met, mut blames) = (0, [0; 2]);
            for seed in 0..500 {
                let mut monitor = Monitor::new(&clause);
                for period in for_clause(&mut Random::new(seed), &clause, 15) {
                    monitor.step(period.one, period.two);
                }
                match monitor.decision() {
                    Decision::Satisfied { period } if period == window.into() => met += 1,
                    Decision::Violated { blame, .. } => blames[blame as usize - 1] += 1,
                    _ => {}
                }
            }
            assert!(
                met > 10 && blames.iter().all(|count| *count > 10),
                "{window} {met} {blames:?}"
            );
        }
    }
}
