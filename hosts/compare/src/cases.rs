//! Random cases by family.

use crate::contracts;
use crate::images;
use crate::logs;
use crate::random::Random;
use crate::traces;
use reference::calls::{decide, DECIDE_REPLY, SHORT_REPLY};
use reference::contract::{least_buffer, read, sum_of_windows};
use reference::image::MAX_BYTES;
use reference::records::four_bytes;
use reference::{Form, Monitor, Period};

#[derive(Clone, Copy, Debug, PartialEq, Eq)]
pub enum Family {
    Contracts,
    DamagedContracts,
    Images,
    DamagedImages,
    Logs,
}

/// The families with their names, in the summary's order.
pub const FAMILIES: [(Family, &str); 5] = [
    (Family::Contracts, "contracts"),
    (Family::DamagedContracts, "damaged contracts"),
    (Family::Images, "images"),
    (Family::DamagedImages, "damaged images, states, traces"),
    (Family::Logs, "logs"),
];

/// How a case gets its image and state.
#[derive(Clone)]
pub enum Start {
    /// Compile with a buffer and a reply area of these lengths; the state holds random bytes.
    Contract {
        bytes: Vec<u8>,
        buffer: usize,
        reply: usize,
    },
    Image {
        bytes: Vec<u8>,
        state: Vec<u8>,
    },
}

/// A call on the image and the state, on the image alone (decide) or on neither (join), with a
/// reply area of that length.
#[derive(Clone)]
pub enum Call {
    Begin {
        reply: usize,
    },
    Step {
        period: Vec<u8>,
        reply: usize,
    },
    Run {
        trace: Vec<u8>,
        reply: usize,
    },
    Decide {
        trace: Vec<u8>,
        reply: usize,
    },
    /// With a trace buffer of the length `trace`.
    Join {
        logs: [Vec<u8>; 2],
        trace: usize,
        reply: usize,
    },
}

impl Call {
    /// The period records that it is given.
    pub fn records(&self) -> Option<&[u8]> {
        match self {
            Call::Begin { .. } | Call::Join { .. } => None,
            Call::Step { period, .. } => Some(period),
            Call::Run { trace, .. } | Call::Decide { trace, .. } => Some(trace),
        }
    }

    /// The same, to be changed.
    pub fn records_mut(&mut self) -> Option<&mut Vec<u8>> {
        match self {
            Call::Begin { .. } | Call::Join { .. } => None,
            Call::Step { period, .. } => Some(period),
            Call::Run { trace, .. } | Call::Decide { trace, .. } => Some(trace),
        }
    }

    /// All bytes that it is given to read, to be changed.
    pub fn given_mut(&mut self) -> Vec<&mut Vec<u8>> {
        match self {
            Call::Join { logs, .. } => logs.iter_mut().collect(),
            other => other.records_mut().into_iter().collect(),
        }
    }
}

#[derive(Clone)]
pub struct Case {
    pub family: Family,
    /// The seed of what guard bytes and areas to be written hold.
    pub fill: u64,
    pub start: Start,
    pub calls: Vec<Call>,
}

impl Case {
    /// The case of that number.
    pub fn of_seed(seed: u64) -> Case {
        let mut random = Random::new(seed);
        let fill = random.next();
        let (family, start, calls) = match random.below(100) {
            0..=35 => contract_case(&mut random),
            36..=58 => damaged_contract_case(&mut random),
            59..=71 => image_case(&mut random),
            72..=89 => damaged_image_case(&mut random),
            _ => log_case(&mut random),
        };
        Case {
            family,
            fill,
            start,
            calls,
        }
    }
}

/// A length of a reply area with room for `least` bytes.
fn room(random: &mut Random, least: usize) -> usize {
    match random.below(4) {
        0 => least,
        1 => least + 1,
        2 => least + random.below(17),
        _ => 2048,
    }
}

/// A length of a reply area that may be too short.
fn any_room(random: &mut Random, least: usize) -> usize {
    match random.below(8) {
        0 => least - 1,
        1 => random.below(41),
        2 => random.below(least),
        _ => room(random, least),
    }
}

type Parts = (Family, Start, Vec<Call>);

/// A contract that is taken, with steps, runs and decides.
fn contract_case(random: &mut Random) -> Parts {
    let bytes = contracts::good(random);
    let least = least_buffer(&bytes);
    let buffer = random
        .pick(&[least, least, least + 1, least + 8, MAX_BYTES, 50000])
        .max(least);
    let reply = room(random, 16);
    let length = traces::length(random);
    let periods = match read(&bytes) {
        Ok(clause) => traces::for_clause(random, &clause, length),
        Err(_) => traces::any(random, length),
    };
    let mut calls = vec![Call::Begin {
        reply: room(random, 16),
    }];
    take(random, &periods, &mut calls);
    if random.percent(5) {
        calls.push(Call::Begin {
            reply: any_room(random, 16),
        });
        take(random, &periods, &mut calls);
    }
    if random.percent(2) {
        // Without begin the state holds any bytes.
        calls.remove(0);
    }
    let decision = decision_of_contract(&bytes, &periods);
    add_decides(random, &periods, decision, &mut calls);
    (
        Family::Contracts,
        Start::Contract {
            bytes,
            buffer,
            reply,
        },
        calls,
    )
}

/// Steps and runs that take these periods, with refused calls between them.
fn take(random: &mut Random, periods: &[Period], calls: &mut Vec<Call>) {
    let refused = random.pick(&[0, 5, 15, 40]);
    let runs = random.pick(&[0, 20, 60, 100]);
    let mut rest = periods;
    while !rest.is_empty() {
        if random.percent(refused) {
            calls.push(refused_call(random, rest));
            continue;
        }
        if random.percent(runs) {
            let (now, later) = rest.split_at(random.below(rest.len().min(30) + 1));
            calls.push(Call::Run {
                trace: traces::in_some_form(random, now),
                reply: room(random, 24),
            });
            rest = later;
        } else {
            let (now, later) = rest.split_at(1);
            calls.push(Call::Step {
                period: traces::in_some_form(random, now),
                reply: room(random, 24),
            });
            rest = later;
        }
    }
    if random.percent(30) {
        calls.push(Call::Run {
            trace: Vec::new(),
            reply: room(random, 24),
        });
    }
}

/// A call that is refused, mostly.
fn refused_call(random: &mut Random, rest: &[Period]) -> Call {
    let some = random.between(1, rest.len().min(20));
    let some = traces::in_some_form(random, &rest[..some]);
    match random.below(4) {
        0 => Call::Step {
            period: traces::bad_period(random),
            reply: any_room(random, 24),
        },
        1 => Call::Step {
            period: traces::in_some_form(random, &rest[..1]),
            reply: random.below(24),
        },
        2 => Call::Run {
            trace: some,
            reply: random.below(24),
        },
        _ => {
            let mut trace = some;
            traces::damage(random, &mut trace);
            Call::Run {
                trace,
                reply: any_room(random, 24),
            }
        }
    }
}

/// Puts decides on these periods among the calls; the decision is their decision period.
fn add_decides(random: &mut Random, periods: &[Period], decision: usize, calls: &mut Vec<Call>) {
    for _ in 0..random.between(1, 3) {
        let trace = traces::to_decide(random, periods, decision);
        let reply = if random.percent(20) {
            any_room(random, DECIDE_REPLY)
        } else {
            room(random, DECIDE_REPLY)
        };
        let at = random.below(calls.len() + 1);
        calls.insert(at, Call::Decide { trace, reply });
    }
}

/// The decision period of a contract on these periods; 0 for none, or if the contract isn't taken.
fn decision_of_contract(contract: &[u8], periods: &[Period]) -> usize {
    let Ok(clause) = read(contract) else {
        return 0;
    };
    let mut monitor = Monitor::new(&clause);
    for period in periods {
        monitor.step(period.one, period.two);
    }
    monitor.decision_period()
}

/// The decision period of an image on these periods; 0 for none, or if the image isn't good.
fn decision_of_image(image: &[u8], periods: &[Period]) -> usize {
    let mut reply = [0; DECIDE_REPLY];
    decide(image, &traces::bytes(Form::Wide, periods), &mut reply);
    four_bytes(&reply, 20) as usize
}

/// A contract with faults, with a buffer of a length around the least one.
fn damaged_contract_case(random: &mut Random) -> Parts {
    let bytes = if random.percent(15) {
        contracts::good(random)
    } else {
        contracts::damaged(random)
    };
    let least = least_buffer(&bytes);
    let buffer = match random.below(10) {
        0 => least - 1,
        1 => 0,
        2 => random.below(least),
        3 => least - 8,
        4 => least + 1,
        5 => 50000,
        // What would do without the windows, and with one row less for each of their periods.
        6 => least - 32 * sum_of_windows(&bytes),
        7 => least - 8 * sum_of_windows(&bytes),
        _ => least,
    };
    let reply = any_room(random, 16);
    let mut calls = vec![Call::Begin {
        reply: any_room(random, 16),
    }];
    let periods = traces::any(random, 3);
    take(random, &periods, &mut calls);
    let decision = decision_of_contract(&bytes, &periods);
    add_decides(random, &periods, decision, &mut calls);
    (
        Family::DamagedContracts,
        Start::Contract {
            bytes,
            buffer,
            reply,
        },
        calls,
    )
}

/// A good image that compile needn't have written, and a sound state.
fn image_case(random: &mut Random) -> Parts {
    let bytes = images::good(random);
    let state = images::state(random, images::rows_of(&bytes));
    let length = traces::length(random);
    let periods = traces::any(random, length);
    let mut calls = Vec::new();
    take(random, &periods, &mut calls);
    if random.percent(10) {
        let at = random.below(calls.len() + 1);
        calls.insert(
            at,
            Call::Begin {
                reply: any_room(random, 16),
            },
        );
    }
    let decision = decision_of_image(&bytes, &periods);
    add_decides(random, &periods, decision, &mut calls);
    (Family::Images, Start::Image { bytes, state }, calls)
}

/// Faults in the image, the state or the trace, or in several of them.
fn damaged_image_case(random: &mut Random) -> Parts {
    let mut bytes = if random.percent(15) {
        images::odd(random)
    } else {
        images::good(random)
    };
    let mut state = images::state(random, images::rows_of(&bytes));
    let [image_fault, state_fault, trace_fault] = [35, 45, 50].map(|chance| random.percent(chance));
    if image_fault {
        for _ in 0..random.between(1, 2) {
            images::damage(random, &mut bytes);
        }
        if random.percent(50) {
            // A state that fits the damaged image's length.
            state = images::state(random, images::rows_of(&bytes));
        }
    }
    if state_fault {
        images::damage_state(random, &mut state);
    }
    let mut calls = Vec::new();
    for _ in 0..random.between(1, 3) {
        let length = random.below(16);
        let periods = traces::any(random, length);
        let mut trace = traces::in_some_form(random, &periods);
        if trace_fault {
            traces::damage(random, &mut trace);
        }
        let reply = any_room(random, 24);
        calls.push(match random.below(7) {
            0 => Call::Begin {
                reply: any_room(random, 16),
            },
            1 | 2 => Call::Step {
                period: step_record(random, trace_fault),
                reply,
            },
            3 | 4 => Call::Run { trace, reply },
            _ => {
                if trace_fault {
                    let decision = decision_of_image(&bytes, &periods);
                    trace = traces::to_decide(random, &periods, decision);
                }
                Call::Decide {
                    trace,
                    reply: any_room(random, DECIDE_REPLY),
                }
            }
        });
    }
    (Family::DamagedImages, Start::Image { bytes, state }, calls)
}

fn step_record(random: &mut Random, fault: bool) -> Vec<u8> {
    if fault {
        traces::bad_period(random)
    } else {
        let periods = traces::any(random, 1);
        traces::in_some_form(random, &periods)
    }
}

/// Joins of logs, and an image that the joined periods are for.
fn log_case(random: &mut Random) -> Parts {
    let length = logs::length(random);
    let start = start_for(random, length);
    let periods = match &start {
        Start::Contract { bytes, .. } if length <= logs::MAX_SHORT => match read(bytes) {
            Ok(clause) => traces::for_clause(random, &clause, length),
            Err(_) => traces::any(random, length),
        },
        _ => traces::any(random, length),
    };
    let joins = if length <= logs::MAX_MIDDLING {
        random.between(1, 3)
    } else {
        1
    };
    let calls = (0..joins).map(|_| join(random, &periods)).collect();
    (Family::Logs, start, calls)
}

/// A contract or an image, the smaller the more periods there are.
fn start_for(random: &mut Random, periods: usize) -> Start {
    if random.percent(60) {
        let bytes = match periods {
            0..=16 => contracts::good(random),
            17..=logs::MAX_SHORT => contracts::short(random, 8),
            _ => contracts::short(random, 3),
        };
        return Start::Contract {
            buffer: least_buffer(&bytes),
            bytes,
            reply: SHORT_REPLY,
        };
    }
    let bytes = match periods {
        0..=16 => images::good(random),
        17..=logs::MAX_SHORT => images::small(random, 24),
        _ => images::small(random, 6),
    };
    let state = images::state(random, images::rows_of(&bytes));
    Start::Image { bytes, state }
}

/// A join of logs of these periods' attempts, half of them damaged.
fn join(random: &mut Random, periods: &[Period]) -> Call {
    let mut logs = logs::of_periods(random, periods);
    let need = logs::trace_bytes(&logs);
    if random.percent(50) {
        logs::damage(random, &mut logs);
    }
    let reply = match random.below(10) {
        0 => any_room(random, SHORT_REPLY),
        1 => random.below(49),
        _ => room(random, SHORT_REPLY),
    };
    Call::Join {
        logs,
        trace: logs::buffer(random, need),
        reply,
    }
}

#[cfg(test)]
mod tests {
    use super::*;
    use crate::contracts::{names_upper, RECORD};
    use reference::calls::LONG_REPLY;
    use reference::logs::joined;
    use reference::records::read_trace;
    use std::cmp::Ordering;
    use std::collections::BTreeSet;

    const QUIET: Period = Period { one: 0, two: 0 };
    const BOTH: Period = Period { one: 1, two: 1 };

    /// The number of each call that is given records (0 step, 1 run, 2 decide), the records, and
    /// whether there is room for the reply.
    fn calls_with_records(case: &Case) -> impl Iterator<Item = (usize, &[u8], bool)> {
        case.calls.iter().filter_map(|call| {
            let (number, has_room) = match call {
                Call::Begin { .. } | Call::Join { .. } => return None,
                Call::Step { reply, .. } => (0, *reply >= LONG_REPLY),
                Call::Run { reply, .. } => (1, *reply >= LONG_REPLY),
                Call::Decide { reply, .. } => (2, *reply >= DECIDE_REPLY),
            };
            Some((number, call.records()?, has_room))
        })
    }

    /// The sort of a call's records: 0 empty, 1 and 2 good in each form, 3 with a bad first mark, 4
    /// with a bad length, 5 with a bad mark later, 6 with one of the other form.
    fn sort_of(call: usize, records: &[u8]) -> usize {
        let record_bytes = traces::record_bytes(records);
        let fits = match call {
            0 => records.len() == record_bytes,
            _ => records.len().is_multiple_of(record_bytes),
        };
        match (Form::of_mark(records), read_trace(records)) {
            (None, Ok(_)) => 0,
            (Some(form), Ok(_)) if fits => 1 + form as usize,
            (None, Err(_)) if records.len() > 1 => 3,
            (Some(_), Err(refusal)) if fits => {
                let record = &records[refusal.place as usize * record_bytes..];
                5 + usize::from(Form::of_mark(record).is_some())
            }
            _ => 4,
        }
    }

    #[test]
    fn every_family_has_calls_of_every_sort() {
        // By call and family: without room, then the sorts of the records.
        let mut counts = [[[0; 8]; FAMILIES.len()]; 3];
        for case in (0..30000).map(Case::of_seed) {
            for (call, records, has_room) in calls_with_records(&case) {
                let sort = if has_room {
                    1 + sort_of(call, records)
                } else {
                    0
                };
                counts[call][case.family as usize][sort] += 1;
            }
        }
        // A step's one record has no later mark. The family of logs has joins alone.
        for (families, sorts) in counts.iter().zip([6, 8, 8]) {
            let often = |family: &[usize; 8]| family[..sorts].iter().all(|count| *count > 10);
            let (logs, others) = families.split_last().expect("there are families");
            assert!(others.iter().all(often), "{counts:?}");
            assert_eq!(*logs, [0; 8]);
        }
    }

    /// By the reference's answer: no room for the reply, accepted with a trace buffer of just the
    /// length and with a longer one, refused for a log, for a buffer that is one byte too short, and
    /// for a shorter one.
    #[test]
    fn joins_of_every_sort_come_up() {
        let mut counts = [0; 6];
        for case in (0..10000).map(Case::of_seed) {
            for call in &case.calls {
                let Call::Join { logs, trace, reply } = call else {
                    continue;
                };
                let sort = match joined(&logs[0], &logs[1]) {
                    _ if *reply < SHORT_REPLY => 0,
                    Err(_) => 3,
                    Ok(periods) => match trace.cmp(&(10 * periods.len())) {
                        Ordering::Equal => 1,
                        Ordering::Greater => 2,
                        Ordering::Less if trace + 1 == 10 * periods.len() => 4,
                        Ordering::Less => 5,
                    },
                };
                counts[sort] += 1;
            }
        }
        assert!(counts.iter().all(|count| *count > 50), "{counts:?}");
    }

    #[test]
    fn joins_have_reply_areas_of_every_length_to_48() {
        let mut seen = BTreeSet::new();
        for case in (0..20000).map(Case::of_seed) {
            seen.extend(case.calls.iter().filter_map(|call| match call {
                Call::Join { reply, .. } => Some(*reply),
                _ => None,
            }));
        }
        let all: BTreeSet<usize> = (0..=48).chain([2048]).collect();
        assert_eq!(seen, all);
    }

    /// The number of each call that is given records, their form as a number, and their length.
    fn given(case: &Case) -> impl Iterator<Item = (usize, Option<usize>, usize)> + '_ {
        calls_with_records(case).map(|(call, records, _)| {
            let form = Form::of_mark(records).map(|form| form as usize);
            (call, form, records.len())
        })
    }

    #[test]
    fn both_forms_meet_contracts_with_and_without_upper_actions() {
        let mut counts = [[[0; 2]; 2]; 3];
        for case in (0..3000).map(Case::of_seed) {
            let Start::Contract { bytes, .. } = &case.start else {
                continue;
            };
            let names_upper = bytes.chunks_exact(RECORD).any(names_upper);
            for (call, form, _) in given(&case) {
                if let Some(form) = form {
                    counts[call][form][usize::from(names_upper)] += 1;
                }
            }
        }
        let all = counts.as_flattened().as_flattened();
        assert!(all.iter().all(|count| *count > 200), "{counts:?}");
    }

    #[test]
    fn steps_alternate_between_forms() {
        let alternates = |case: &Case| {
            let steps = given(case).filter(|(call, _, _)| *call == 0);
            let forms: Vec<usize> = steps.filter_map(|(_, form, _)| form).collect();
            forms.windows(2).filter(|pair| pair[0] != pair[1]).count() > 4
        };
        let cases = (0..1000).map(Case::of_seed).filter(alternates).count();
        assert!(cases > 100, "{cases}");
    }

    #[test]
    fn every_short_length_is_given_to_every_call() {
        let mut seen = BTreeSet::new();
        for case in (0..20000).map(Case::of_seed) {
            seen.extend(given(&case));
        }
        for call in 0..3 {
            for length in 2..22 {
                for form in [None, Some(0), Some(1)] {
                    let given = (call, form, length);
                    assert!(seen.contains(&given), "{given:?}");
                }
            }
            assert!((0..2).all(|length| seen.contains(&(call, None, length))));
        }
    }

    #[test]
    fn decisions_are_found() {
        let duty = [0x54, 0x43, 1, 1, 0, 0];
        let repeated = [duty, [0x54, 0x43, 7, 0, 0, 0]].concat();
        assert_eq!(decision_of_contract(&duty, &[QUIET, BOTH]), 1);
        assert_eq!(
            decision_of_contract(&repeated, &[BOTH, BOTH, QUIET, BOTH]),
            3
        );
        assert_eq!(decision_of_contract(&repeated, &[BOTH; 9]), 0);
        assert_eq!(decision_of_contract(&duty[..5], &[QUIET]), 0);

        // Satisfied when party 1 tries action 0.
        let image = [
            [0x54, 0x52, 2, 0, 1, 0, 0, 0],
            [0x54, 0x52, 0, 0, 0, 0, 0, 0],
            [0x54, 0x45, 0, 0, 1, 0, 1, 0],
        ];
        let image = image.concat();
        assert_eq!(decision_of_image(&image, &[QUIET, QUIET, BOTH, QUIET]), 3);
        assert_eq!(decision_of_image(&image, &[QUIET; 9]), 0);
        assert_eq!(decision_of_image(&image[1..], &[BOTH]), 0);
    }
}
