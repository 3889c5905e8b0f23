//! Section 8: `join` against a merge by hand.

use crate::inputs::Random;
use crate::merge::{Join, Refused, JOINS, RECORD, WIDE};
use crate::plain::PLACES;
use crate::product;
use crate::timing::{each_of, fastest, Plan, Side};
use monitor::calls;

/// Two logs, and to which period they reach.
pub struct Logs {
    pub name: &'static str,
    pub logs: [Vec<u8>; 2],
    pub periods: usize,
}

pub fn measure(plan: &Plan) {
    plan.say(
        "\n8. `join` against a merge by hand in safe Rust: nanoseconds for each period of the trace\n   \
         Both make the same tests and write the same bytes. The merge is compiled four times, its code\n   \
         16 bytes further on each time, and the fastest place counts; the archive's code has one place.\n   \
         The ratio is that of `join` to the merge.\n",
    );
    line(
        plan,
        ["logs", "records", "periods", "join", "merge", "ratio"],
    );
    for input in inputs(plan) {
        check(&input);
        measure_input(plan, &input);
    }
}

/// The logs that `join` is timed on.
pub fn inputs(plan: &Plan) -> [Logs; 3] {
    let periods = plan.size(65_535, 100);
    let random = &mut Random::new();
    let both = logs(random, periods, |_, _| [true, true]);
    let turns = logs(random, periods, |_, number| {
        [number % 2 == 1, number % 2 == 0]
    });
    // Both have the last period, so that the trace is as long as the others.
    let sparse = logs(random, periods, |random, number| {
        [(); 2].map(|()| random.below(16) == 0 || number == periods)
    });
    [
        ("every period in both", both),
        ("the periods in turns", turns),
        ("one period in 16 in each", sparse),
    ]
    .map(|(name, logs)| Logs {
        name,
        logs,
        periods,
    })
}

/// Logs of any attempts that have a period where `has` says so.
fn logs(
    random: &mut Random,
    periods: usize,
    has: impl Fn(&mut Random, usize) -> [bool; 2],
) -> [Vec<u8>; 2] {
    let mut logs = [Vec::new(), Vec::new()];
    for number in 1..=periods {
        for (log, has) in logs.iter_mut().zip(has(random, number)) {
            if has {
                log.extend([0x54, 0x4c]);
                log.extend((number as u16).to_le_bytes());
                log.extend((random.mask() << 16 | random.mask()).to_le_bytes());
            }
        }
    }
    logs
}

fn measure_input(plan: &Plan, input: &Logs) {
    let Logs {
        name,
        logs: [one, two],
        periods,
    } = input;
    let each = || vec![0; WIDE * periods];
    // `join` lies in one place, but is timed as often as the merge that lies in several.
    let (mut joined, mut merged) = ([(); PLACES].map(|()| each()), [(); PLACES].map(|()| each()));
    let calls = plan.size(10, 1);
    let mut sides: Vec<Side> = Vec::new();
    for ((joined, merged), merge) in joined.iter_mut().zip(&mut merged).zip(JOINS) {
        sides.push(Box::new(|| {
            each_of(calls, || {
                product::join(one, two, joined);
            })
        }));
        sides.push(Box::new(move || {
            each_of(calls, || {
                merge(one, two, merged).expect("the merge refuses");
            })
        }));
    }
    let times = plan.measure(&mut sides);
    drop(sides);
    let all = joined.iter().chain(&merged);
    assert!(
        all.clone().all(|trace| *trace == joined[0]),
        "{name}: the merge ends otherwise than join"
    );
    let times = fastest(&times, PLACES);
    let records = (one.len() + two.len()) / RECORD;
    line(
        plan,
        [
            name,
            &records.to_string(),
            &periods.to_string(),
            &times[0].per(*periods),
            &times[1].per(*periods),
            &times[0].ratio(times[1]),
        ],
    );
}

/// Both sides leave the same and reply the same, also where they refuse: without room, and where a
/// byte of either log is another one, at its start and at its end, or is missing.
fn check(input: &Logs) {
    let [one, two] = &input.logs;
    let need = WIDE * input.periods;
    for length in [need, need + 7, need - 1, 0] {
        agree(one, two, length);
    }
    for log in 0..2 {
        let end = input.logs[log].len() - RECORD;
        for at in (0..4).chain(end..end + 4) {
            let mut logs = input.logs.clone();
            logs[log][at] ^= 0x5a;
            agree(&logs[0], &logs[1], need);
        }
        let mut logs = input.logs.clone();
        logs[log].pop();
        agree(&logs[0], &logs[1], need);
    }
}

fn agree(log1: &[u8], log2: &[u8], length: usize) {
    let answer = |join: &dyn Fn(&mut [u8]) -> Result<u32, Refused>| {
        let mut trace = vec![0xee; length];
        (join(&mut trace), trace)
    };
    let expected = answer(&|trace| reply(log1, log2, trace));
    let merged = |join: Join| answer(&|trace| join(log1, log2, trace)) == expected;
    let alike = JOINS.into_iter().all(merged);
    assert!(alike, "the merge answers otherwise than join");
}

/// What join replies.
fn reply(log1: &[u8], log2: &[u8], trace: &mut [u8]) -> Result<u32, Refused> {
    let mut reply = [0; 16];
    calls::join(log1, log2, trace, &mut reply);
    match product::field(&reply, 0) {
        0 => Ok(product::field(&reply, 4)),
        number => Err((number, product::field(&reply, 8).into())),
    }
}

fn line(plan: &Plan, [name, records, periods, join, merge, ratio]: [&str; 6]) {
    plan.say(&format!(
        "   {name:<26}{records:>8}{periods:>9}{join:>17}{merge:>17}{ratio:>13}"
    ));
}
