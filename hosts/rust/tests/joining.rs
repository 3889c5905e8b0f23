//! Log records, logs, and the join of two logs, with refusals 14 to 16.

use std::num::NonZeroU16;

use monitor::{
    calls, join, join_bytes, Action, Blame, Clause, Contract, Fault, Image, LogRecord, Monitor,
    Outcome, Party, Period, Refusal, Verdict,
};

mod common;
use common::Random;

const A: Action = Action::new(0).unwrap();
const B: Action = Action::new(1).unwrap();
const LAST: Action = Action::new(31).unwrap();

fn record(period: u16, attempts: u32) -> LogRecord {
    LogRecord::from_mask(NonZeroU16::new(period).unwrap(), attempts)
}

/// The log of these numbers and attempts.
fn log(records: &[(u16, u32)]) -> Vec<LogRecord> {
    records
        .iter()
        .map(|(period, attempts)| record(*period, *attempts))
        .collect()
}

/// The bytes of a log of these numbers, which may be bad ones.
fn numbered(numbers: &[u16]) -> Vec<u8> {
    let record = |number: &u16| {
        let [low, high] = number.to_le_bytes();
        [0x54, 0x4c, low, high, 1, 0, 0, 0]
    };
    numbers.iter().flat_map(record).collect()
}

fn periods(masks: &[(u32, u32)]) -> Vec<Period> {
    masks
        .iter()
        .map(|(one, two)| Period::from_masks(*one, *two))
        .collect()
}

#[track_caller]
fn hold<T: std::fmt::Debug>(got: Result<T, Refusal>, number: u32, place: u64) {
    let refusal = got.unwrap_err();
    assert_eq!((refusal.fault.number(), refusal.place), (number, place));
}

#[test]
fn a_record_is_a_number_and_attempts() {
    let mut record = record(0x1234, 0x8765_4321);
    let bytes = [0x54, 0x4c, 0x34, 0x12, 0x21, 0x43, 0x65, 0x87];
    assert_eq!(record.to_bytes(), bytes);
    assert_eq!(LogRecord::from_bytes(bytes), Ok(record));
    assert_eq!(
        (record.period().get(), record.mask()),
        (0x1234, 0x8765_4321)
    );
    assert_eq!(
        format!("{record:?}"),
        "LogRecord { period: 4660, attempts: 2271560481 }"
    );
    assert!(record.tries(A) && !record.tries(B) && record.tries(LAST));
    record.attempt(B);
    assert!(record.tries(B));
    assert_eq!(record.to_bytes()[4..], [0x23, 0x43, 0x65, 0x87]);
}

#[test]
fn a_record_is_built_of_actions() {
    let number = NonZeroU16::new(7).unwrap();
    assert_eq!(
        LogRecord::from_actions(number, &[LAST, A, A]),
        record(7, 0x8000_0001)
    );
    assert_eq!(LogRecord::from_actions(number, &[]), record(7, 0));
}

#[test]
fn other_bytes_are_no_record() {
    let good = record(0x0102, 0x1234_5678).to_bytes();
    let longer = [good, good].concat();
    for length in (0..=longer.len()).filter(|length| *length != LogRecord::BYTES) {
        hold(LogRecord::from_bytes(&longer[..length]), 14, 0);
    }
    for byte in 0..=255 {
        for (at, mark) in [(0, 0x54), (1, 0x4c)] {
            let mut other = good;
            other[at] = byte;
            assert_eq!(LogRecord::from_bytes(other).is_ok(), byte == mark);
        }
        // A number is 0 only where both its bytes are.
        for at in [2, 3] {
            let mut other = good;
            other[2..4].fill(0);
            other[at] = byte;
            assert_eq!(LogRecord::from_bytes(other).is_ok(), byte != 0);
        }
    }
}

#[test]
fn a_list_of_records_is_a_log() {
    let records = log(&[(1, 5), (4, 0), (65_535, 0xffff_ffff)]);
    let bytes = [
        [0x54, 0x4c, 1, 0, 5, 0, 0, 0],
        [0x54, 0x4c, 4, 0, 0, 0, 0, 0],
        [0x54, 0x4c, 255, 255, 255, 255, 255, 255],
    ];
    assert_eq!(LogRecord::log(&records), bytes.concat());
    assert_eq!(LogRecord::read_log(bytes.concat()), Ok(records));
    assert_eq!(LogRecord::log(&[]), []);
    assert_eq!(LogRecord::read_log([]), Ok(vec![]));
}

#[test]
fn periods_are_joined_on_their_number() {
    let one = log(&[(1, 1), (2, 2), (5, 0x8000_0000)]);
    let two = log(&[(2, 3), (3, 4)]);
    let joined = periods(&[(1, 0), (2, 3), (0, 4), (0, 0), (0x8000_0000, 0)]);
    assert_eq!(join(&one, &two).unwrap(), joined);
    assert_eq!(
        join_bytes(LogRecord::log(&one), LogRecord::log(&two)).unwrap(),
        joined
    );
}

#[test]
fn a_record_without_attempts_reaches_as_far_as_another() {
    assert_eq!(
        join(&log(&[(1, 1)]), &log(&[(3, 0)])).unwrap(),
        periods(&[(1, 0), (0, 0), (0, 0)])
    );
}

#[test]
fn empty_logs() {
    let some = log(&[(2, 7)]);
    assert_eq!(join(&[], &[]), Ok(vec![]));
    assert_eq!(join(&some, &[]).unwrap(), periods(&[(0, 0), (7, 0)]));
    assert_eq!(join(&[], &some).unwrap(), periods(&[(0, 0), (0, 7)]));
}

#[test]
fn the_greatest_number_and_the_most_records() {
    let joined = join(&log(&[(65_535, 3)]), &[]).unwrap();
    assert_eq!(joined.len(), 65_535);
    assert_eq!(joined[65_534], Period::from_masks(3, 0));
    assert!(joined[..65_534].iter().all(|p| *p == Period::default()));

    let every: Vec<LogRecord> = (1..=65_535).map(|n| record(n, n.into())).collect();
    assert_eq!(every.len(), LogRecord::MAX_RECORDS);
    let joined = join(&every, &every).unwrap();
    assert!((1..)
        .zip(&joined)
        .all(|(n, p)| *p == Period::from_masks(n, n)));
    assert_eq!(joined.len(), 65_535);
    assert_eq!(LogRecord::read_log(LogRecord::log(&every)), Ok(every));
}

#[test]
fn too_many_records() {
    let every: Vec<u16> = (1..=65_535).collect();
    let log = numbered(&[&every[..], &[65_535]].concat());
    hold(LogRecord::read_log(&log), 14, 0);
    hold(join_bytes(&log, &[]), 14, 0);
    hold(join_bytes(&[], &log), 14, 0);
    let records = vec![record(1, 0); 65_536];
    hold(join(&records, &[]), 14, 0);
    hold(join(&[], &records), 14, 0);
}

#[test]
fn lengths_of_logs() {
    let good = numbered(&[1, 2]);
    for length in (0..good.len()).filter(|length| length % LogRecord::BYTES != 0) {
        hold(LogRecord::read_log(&good[..length]), 14, 0);
        hold(join_bytes(&good[..length], &good), 14, 0);
        hold(join_bytes(&good, &good[..length]), 14, 0);
    }
}

/// The log gets the refusal as log 1, alone, and as log 2 with 65,536 added.
#[track_caller]
fn hold_either(log: &[u8], fault: Fault, record: u64) {
    let other = numbered(&[1, 2, 3]);
    hold(LogRecord::read_log(log), fault.number(), record);
    for (logs, party, place) in [
        ([log, &other], Party::One, record),
        ([&other, log], Party::Two, 65_536 + record),
    ] {
        let refusal = join_bytes(logs[0], logs[1]).unwrap_err();
        assert_eq!((refusal.fault, refusal.place), (fault, place));
        let named = match (fault, place) {
            (Fault::BadLog, 0) => None,
            _ => Some((party, record)),
        };
        assert_eq!(refusal.log_record(), named);
    }
}

#[test]
fn marks_and_period_0() {
    for place in 0..4 {
        for (at, byte) in [(0, 0x55), (1, 0x50), (1, 0x51), (1, 0x43)] {
            let mut log = numbered(&[1, 2, 3, 4]);
            log[8 * place + at] = byte;
            hold_either(&log, Fault::BadLog, place as u64);
        }
        let mut numbers = [1, 2, 3, 4];
        numbers[place] = 0;
        hold_either(&numbered(&numbers), Fault::BadLog, place as u64);
    }
}

#[test]
fn numbers_that_do_not_rise() {
    hold_either(&numbered(&[1, 1]), Fault::OutOfOrder, 1);
    hold_either(&numbered(&[2, 1]), Fault::OutOfOrder, 1);
    hold_either(&numbered(&[1, 2, 300, 299, 1]), Fault::OutOfOrder, 3);
    // The high byte counts.
    hold_either(&numbered(&[256, 255]), Fault::OutOfOrder, 1);
    assert_eq!(join_bytes(&numbered(&[255, 256]), &[]).unwrap().len(), 256);
    hold(join(&log(&[(3, 0), (3, 0)]), &[]), 15, 1);
    hold(join(&[], &log(&[(3, 0), (2, 0)])), 15, 65_537);
}

/// All of 14 before 15, log 1 before log 2 within each, a log's length before its records.
#[test]
fn the_order_of_tests() {
    let (bad, falling) = (numbered(&[3, 0]), numbered(&[3, 2, 1]));
    hold(join_bytes(&bad, &bad), 14, 1);
    hold(join_bytes(&falling, &bad), 14, 65_537);
    hold(join_bytes(&falling, &bad[..15]), 14, 0);
    hold(join_bytes(&falling, &falling), 15, 1);
    hold(join_bytes(&numbered(&[1, 2, 3]), &falling), 15, 65_537);
    hold(join_bytes(&bad[..15], &falling), 14, 0);
    // In one log too: period 0 at record 2 before the order at record 1.
    hold(join_bytes(&numbered(&[2, 1, 0]), &[]), 14, 2);
    hold(LogRecord::read_log(numbered(&[2, 1, 0])), 14, 2);
}

/// Log 1's record 0 and a bad length have the same place.
#[test]
fn place_0_does_not_tell_the_log() {
    let good = numbered(&[1]);
    for logs in [
        [&good[..7], &good],
        [&good, &good[..7]],
        [&numbered(&[0]), &good],
    ] {
        let refusal = join_bytes(logs[0], logs[1]).unwrap_err();
        assert_eq!((refusal.fault, refusal.place), (Fault::BadLog, 0));
        assert_eq!(refusal.log_record(), None);
    }
    let refusal = join_bytes(&good, &numbered(&[0])).unwrap_err();
    assert_eq!(refusal.log_record(), Some((Party::Two, 0)));
    // No log is named by other faults.
    for fault in (1..=16).filter_map(Fault::from_number) {
        let refusal = Refusal {
            fault,
            place: 65_540,
        };
        let of_log = matches!(fault, Fault::BadLog | Fault::OutOfOrder);
        assert_eq!(refusal.log_record(), of_log.then_some((Party::Two, 4)));
    }
}

/// What the call leaves of a trace buffer of that length and a reply area of 18 bytes.
fn call(log1: &[u8], log2: &[u8], length: usize) -> ([u8; 18], Vec<u8>) {
    let (mut trace, mut reply) = (vec![0xee; length], [0xee; 18]);
    assert_eq!(calls::join(log1, log2, &mut trace, &mut reply), 1);
    assert_eq!(reply[16..], [0xee; 2]);
    (reply, trace)
}

#[test]
fn trace_buffers() {
    let (one, two) = (numbered(&[1, 3]), numbered(&[2]));
    let joined = join_bytes(&one, &two).unwrap();
    for length in 0..45 {
        let (reply, trace) = call(&one, &two, length);
        if length < 30 {
            assert_eq!(reply[..16], [&[16][..], &[0; 15]].concat());
            assert_eq!(trace, vec![0xee; length]);
        } else {
            assert_eq!(reply[..16], [&[0, 0, 0, 0, 3][..], &[0; 11]].concat());
            assert_eq!(trace[..30], *Period::trace(&joined));
            assert_eq!(trace[30..], vec![0xee; length - 30]);
        }
    }
    let (reply, _) = call(&[], &[], 0);
    assert_eq!(reply[..16], [0; 16]);
}

/// Refused for a log before the trace buffer is looked at.
#[test]
fn logs_before_the_trace_buffer() {
    let (reply, trace) = call(&numbered(&[1]), &numbered(&[2, 2]), 3);
    assert_eq!(
        reply[..16],
        [15, 0, 0, 0, 0, 0, 0, 0, 1, 0, 1, 0, 0, 0, 0, 0]
    );
    assert_eq!(trace, [0xee; 3]);
    let (reply, trace) = call(&numbered(&[0]), &[], 30);
    assert_eq!(reply[..16], [&[14][..], &[0; 15]].concat());
    assert_eq!(trace, [0xee; 30]);
}

#[test]
fn areas_too_short_for_a_reply() {
    for length in 0..16 {
        let (mut trace, mut reply) = ([0xee; 10], vec![0xee; length]);
        assert_eq!(calls::join(&numbered(&[1]), &[], &mut trace, &mut reply), 0);
        assert_eq!(trace, [0xee; 10]);
        assert_eq!(reply, vec![0xee; length]);
    }
}

/// A log of some periods up to 12, mostly with attempts.
fn some_log(random: &mut Random) -> Vec<LogRecord> {
    let chance = random.below(5);
    let mut records = Vec::new();
    for number in 1..=random.below(13) as u16 {
        if random.below(4) < chance {
            records.push(record(number, random.below(4) as u32));
        }
    }
    records
}

/// What a log says of a period.
fn attempts(log: &[LogRecord], number: usize) -> u32 {
    let of_period = |record: &&LogRecord| usize::from(record.period().get()) == number;
    log.iter().find(of_period).map_or(0, |record| record.mask())
}

#[test]
fn every_period_is_what_the_logs_say() {
    let random = &mut Random::new(1);
    let mut lengths = [0; 13];
    for _ in 0..2000 {
        let (one, two) = (some_log(random), some_log(random));
        let joined = join(&one, &two).unwrap();
        let last = |log: &[LogRecord]| log.last().map_or(0, |record| record.period().get());
        assert_eq!(joined.len(), usize::from(last(&one).max(last(&two))));
        for (number, period) in (1..).zip(&joined) {
            let expected = Period::from_masks(attempts(&one, number), attempts(&two, number));
            assert_eq!(*period, expected, "{one:?} {two:?}");
        }
        lengths[joined.len()] += 1;
    }
    assert!(lengths.iter().all(|count| *count > 10), "{lengths:?}");
}

#[test]
fn exchanging_the_logs_exchanges_the_parties() {
    let random = &mut Random::new(2);
    for _ in 0..1000 {
        let (one, two) = (some_log(random), some_log(random));
        let exchanged: Vec<Period> = join(&two, &one)
            .unwrap()
            .into_iter()
            .map(|p| Period::from_masks(p.mask(Party::Two), p.mask(Party::One)))
            .collect();
        assert_eq!(join(&one, &two).unwrap(), exchanged);
    }
}

/// Damaged logs are refused when they are read alone as join refuses them.
#[test]
fn a_log_is_read_as_join_reads_it() {
    let random = &mut Random::new(3);
    let mut seen = [0; 3];
    for _ in 0..5000 {
        let mut log = LogRecord::log(&some_log(random)).to_vec();
        for _ in 0..random.below(3) {
            if !log.is_empty() {
                let at = random.below(log.len());
                log[at] = random.below(256) as u8;
            }
        }
        let refused = join_bytes(&log, &[]).err();
        assert_eq!(LogRecord::read_log(&log).err(), refused, "{log:?}");
        seen[match refused.map(|refusal| refusal.fault) {
            None => 0,
            Some(Fault::BadLog) => 1,
            Some(_) => 2,
        }] += 1;
    }
    assert!(seen.iter().all(|count| *count > 300), "{seen:?}");
}

/// Again and again party 1 owes action 0, or else action 1 one period later.
fn image() -> Image {
    let correction = Clause::duty(Party::One, B);
    let clause = Clause::duty(Party::One, A).repair(correction).repeat();
    Image::compile(Contract::from(clause)).unwrap()
}

#[test]
fn joined_periods_give_the_verdict() {
    let image = image();
    // In period 3 party 1 tries nothing; in period 4 party 2 has no record.
    let one = log(&[(1, 1), (2, 1), (4, 2), (5, 1)]);
    let two = log(&[(1, 1), (2, 1), (3, 1), (5, 1)]);
    let joined = join(&one, &two).unwrap();
    let decided = image.decide(&joined).unwrap();
    assert_eq!(decided.outcome, Outcome::Violated);
    assert_eq!(decided.blame, Some(Blame::Two));
    assert_eq!(decided.records, 4);

    let mut monitor = Monitor::begin(&image);
    let reply = monitor.run(&joined).unwrap().reply;
    assert_eq!(reply.verdict, Verdict::BrokenAfter);
    assert_eq!(reply.blame, decided.blame);
    assert_eq!(reply.decision, decided.decision);
    assert_eq!(monitor.periods(), 5);
}

/// The call's bytes as they stand are a trace to run and decide.
#[test]
fn the_written_trace_is_taken_as_it_stands() {
    let image = image();
    let random = &mut Random::new(4);
    for _ in 0..500 {
        let (one, two) = (some_log(random), some_log(random));
        let joined = join(&one, &two).unwrap();
        let mut trace = vec![0; Period::BYTES * joined.len()];
        let (one, two) = (LogRecord::log(&one), LogRecord::log(&two));
        assert_eq!(calls::join(one, two, &mut trace, &mut [0; 16]), 1);
        assert_eq!(Period::read_trace(&trace), Ok(joined.clone()));
        assert_eq!(image.decide_bytes(&trace), image.decide(&joined));
        let (mut written, mut listed) = (Monitor::begin(&image), Monitor::begin(&image));
        assert_eq!(written.run_bytes(&trace), listed.run(&joined));
        assert_eq!(written, listed);
    }
}
