//! Document 02's "Join the two parties' logs": whole traces and replies, each refusal with its
//! places, the order of the tests, and the bytes that stay.

mod common;

use common::*;
use reference::calls::run;
use reference::logs::{check_log_length, check_room, join, joined, joined_within, LogRecord};
use reference::records::read_trace;
use reference::{Period, Refusal};

/// The log of these period numbers and attempts.
fn log(records: &[(u16, u32)]) -> Vec<u8> {
    let mut log = Vec::new();
    for (number, attempts) in records {
        log.extend([0x54, 0x4c]);
        log.extend(number.to_le_bytes());
        log.extend(attempts.to_le_bytes());
    }
    log
}

/// The log of these period numbers, with no attempts.
fn quiet(numbers: &[u16]) -> Vec<u8> {
    let records: Vec<(u16, u32)> = numbers.iter().map(|number| (*number, 0)).collect();
    log(&records)
}

/// The log of periods 1 to `last`, with no attempts.
fn from_one_to(last: u16) -> Vec<u8> {
    let numbers: Vec<u16> = (1..=last).collect();
    quiet(&numbers)
}

/// The bytes with others from `at` on.
fn with(bytes: &[u8], at: usize, others: &[u8]) -> Vec<u8> {
    let mut bytes = bytes.to_vec();
    bytes[at..at + others.len()].copy_from_slice(others);
    bytes
}

/// The wide record of attempts that are all of actions 0 to 7.
fn wide(one: u8, two: u8) -> [u8; 10] {
    [0x54, 0x51, one, 0, 0, 0, two, 0, 0, 0]
}

/// An accepted reply with a record count below 256.
fn accepted(records: u8) -> [u8; 16] {
    [0, 0, 0, 0, records, 0, 0, 0, 0, 0, 0, 0, 0, 0, 0, 0]
}

/// A refusal's reply.
fn refused(number: u8, place: u32) -> [u8; 16] {
    let mut reply = [0; 16];
    reply[0] = number;
    reply[8..12].copy_from_slice(&place.to_le_bytes());
    reply
}

/// What join writes into a trace buffer of that length and a reply area of 16 bytes, full of sevens.
fn call(log1: &[u8], log2: &[u8], length: usize) -> ([u8; 16], Vec<u8>) {
    let (mut trace, mut reply) = (vec![7; length], [7; 16]);
    assert_eq!(join(log1, log2, &mut trace, &mut reply), 1);
    (reply, trace)
}

/// The logs give this trace of under 256 records: in a buffer of its length, and in longer ones,
/// whose other bytes stay. A byte less is too short.
fn joins(log1: &[u8], log2: &[u8], expected: &[u8]) {
    let reply = accepted((expected.len() / 10) as u8);
    for more in [0, 1, 9, 10, 11, 25] {
        let (found, trace) = call(log1, log2, expected.len() + more);
        assert_eq!(found, reply);
        assert_eq!(trace[..expected.len()], *expected);
        assert_eq!(trace[expected.len()..], vec![7; more]);
    }
    if !expected.is_empty() {
        refuses_in(log1, log2, expected.len() - 1, refused(16, 0));
    }
    assert_eq!(joined(log1, log2), read_trace(expected));
}

/// The logs get this refusal, and the trace buffer of that length stays.
fn refuses_in(log1: &[u8], log2: &[u8], length: usize, reply: [u8; 16]) {
    assert_eq!(call(log1, log2, length), (reply, vec![7; length]));
    let refusal = joined_within(log1, log2, length).unwrap_err();
    assert_eq!(u32::from(reply[0]), refusal.number);
    assert_eq!(reply[8..], refusal.place.to_le_bytes());
}

/// The logs get this refusal in a buffer that is empty and in one that isn't.
fn refuses(log1: &[u8], log2: &[u8], reply: [u8; 16]) {
    refuses_in(log1, log2, 0, reply);
    refuses_in(log1, log2, 300, reply);
}

/// As log 1 the log gets this refusal at `place`, as log 2 at 65,536 more.
fn refuses_either(log: &[u8], number: u8, place: u32) {
    let other = quiet(&[1, 2]);
    for other in [&[], other.as_slice()] {
        refuses(log, other, refused(number, place));
        refuses(other, log, refused(number, 65536 + place));
    }
}

/// As either log the log has a bad length: 14 at 0.
fn bad_length(log: &[u8]) {
    for other in [&[], quiet(&[1, 2]).as_slice()] {
        refuses(log, other, refused(14, 0));
        refuses(other, log, refused(14, 0));
    }
}

#[test]
fn every_byte_of_a_call() {
    let log1 = [
        [0x54, 0x4c, 0x01, 0x00, 0x01, 0x02, 0x04, 0x80],
        [0x54, 0x4c, 0x04, 0x00, 0xff, 0xfe, 0xfd, 0xfc],
    ];
    let log2 = [
        [0x54, 0x4c, 0x02, 0x00, 0x08, 0x10, 0x20, 0x40],
        [0x54, 0x4c, 0x04, 0x00, 0x03, 0x05, 0x06, 0x09],
    ];
    let expected = [
        [0x54, 0x51, 0x01, 0x02, 0x04, 0x80, 0x00, 0x00, 0x00, 0x00],
        [0x54, 0x51, 0x00, 0x00, 0x00, 0x00, 0x08, 0x10, 0x20, 0x40],
        [0x54, 0x51, 0x00, 0x00, 0x00, 0x00, 0x00, 0x00, 0x00, 0x00],
        [0x54, 0x51, 0xff, 0xfe, 0xfd, 0xfc, 0x03, 0x05, 0x06, 0x09],
    ];
    let (mut trace, mut reply) = ([7; 45], [7; 20]);
    let result = join(&log1.concat(), &log2.concat(), &mut trace, &mut reply);
    assert_eq!(result, 1);
    assert_eq!(trace[..40], expected.concat());
    assert_eq!(trace[40..], [7, 7, 7, 7, 7]);
    let expected = [
        0, 0, 0, 0, // number
        4, 0, 0, 0, // records
        0, 0, 0, 0, 0, 0, 0, 0, // place
        7, 7, 7, 7,
    ];
    assert_eq!(reply, expected);
}

#[test]
fn the_bytes_of_a_refusal() {
    let log2 = [
        [0x54, 0x4c, 0x05, 0x00, 0x01, 0x00, 0x00, 0x00],
        [0x54, 0x4c, 0x07, 0x00, 0x01, 0x00, 0x00, 0x00],
        [0x54, 0x4c, 0x07, 0x00, 0x01, 0x00, 0x00, 0x00],
    ];
    let (mut trace, mut reply) = ([7; 100], [7; 20]);
    assert_eq!(join(&[], &log2.concat(), &mut trace, &mut reply), 1);
    assert_eq!(trace, [7; 100]);
    let expected = [
        15, 0, 0, 0, // number
        0, 0, 0, 0, // records
        2, 0, 1, 0, 0, 0, 0, 0, // place
        7, 7, 7, 7,
    ];
    assert_eq!(reply, expected);
    assert_eq!(
        joined(&[], &log2.concat()),
        Err(Refusal {
            number: 15,
            place: 65538
        })
    );
}

#[test]
fn log_records() {
    let record = LogRecord {
        period: 0x0201,
        attempts: 0x8040_2010,
    };
    let bytes = [0x54, 0x4c, 0x01, 0x02, 0x10, 0x20, 0x40, 0x80];
    assert_eq!(record.record(), bytes);
    assert_eq!(LogRecord::of_record(&bytes), Some(record));
    assert_eq!(LogRecord::of_record(&with(&bytes, 1, &[0x4d])), None);
    assert_eq!(LogRecord::of_record(&with(&bytes, 2, &[0, 0])), None);
}

#[test]
fn equal_logs() {
    let one = log(&[(1, 1)]);
    joins(&one, &one, &wide(1, 1));
    let three = log(&[(1, 1), (2, 2), (3, 7)]);
    let expected = [wide(1, 1), wide(2, 2), wide(7, 7)];
    joins(&three, &three, &expected.concat());
    let late = log(&[(3, 5)]);
    joins(&late, &late, &[wide(0, 0), wide(0, 0), wide(5, 5)].concat());
}

#[test]
fn the_same_numbers_with_other_attempts() {
    let (log1, log2) = (log(&[(1, 1), (2, 0)]), log(&[(1, 2), (2, 255)]));
    joins(&log1, &log2, &[wide(1, 2), wide(0, 255)].concat());
    joins(&log2, &log1, &[wide(2, 1), wide(255, 0)].concat());
}

#[test]
fn disjoint_logs() {
    // One log wholly before the other.
    let (early, late) = (log(&[(1, 1), (2, 2)]), log(&[(3, 4), (4, 8)]));
    let expected = [wide(1, 0), wide(2, 0), wide(0, 4), wide(0, 8)];
    joins(&early, &late, &expected.concat());
    let expected = [wide(0, 1), wide(0, 2), wide(4, 0), wide(8, 0)];
    joins(&late, &early, &expected.concat());
    // In turns.
    let (odd, even) = (log(&[(1, 1), (3, 3)]), log(&[(2, 2), (4, 4)]));
    let expected = [wide(1, 0), wide(0, 2), wide(3, 0), wide(0, 4)];
    joins(&odd, &even, &expected.concat());
    let expected = [wide(0, 1), wide(2, 0), wide(0, 3), wide(4, 0)];
    joins(&even, &odd, &expected.concat());
}

#[test]
fn overlapping_logs() {
    let log1 = log(&[(1, 1), (2, 2), (3, 3)]);
    let log2 = log(&[(2, 20), (3, 30), (4, 40), (5, 50)]);
    let expected = [
        wide(1, 0),
        wide(2, 20),
        wide(3, 30),
        wide(0, 40),
        wide(0, 50),
    ];
    joins(&log1, &log2, &expected.concat());
    // A log within the other's numbers.
    let within = log(&[(3, 9)]);
    let expected = [
        wide(0, 0),
        wide(0, 20),
        wide(9, 30),
        wide(0, 40),
        wide(0, 50),
    ];
    joins(&within, &log2, &expected.concat());
}

#[test]
fn gaps() {
    // Before the first numbers, between two, and in both logs or one.
    let log1 = log(&[(3, 1), (6, 2), (8, 3)]);
    let log2 = log(&[(2, 10), (6, 20)]);
    let expected = [
        wide(0, 0),
        wide(0, 10),
        wide(1, 0),
        wide(0, 0),
        wide(0, 0),
        wide(2, 20),
        wide(0, 0),
        wide(3, 0),
    ];
    joins(&log1, &log2, &expected.concat());
}

#[test]
fn a_record_without_attempts() {
    // It counts for the length, and otherwise is as if the log lacked it.
    joins(&quiet(&[1]), &[], &wide(0, 0));
    joins(
        &quiet(&[2]),
        &log(&[(1, 3)]),
        &[wide(0, 3), wide(0, 0)].concat(),
    );
    joins(
        &log(&[(2, 3)]),
        &quiet(&[1, 2]),
        &[wide(0, 0), wide(3, 0)].concat(),
    );
    joins(&log(&[(2, 3)]), &[], &[wide(0, 0), wide(3, 0)].concat());
}

#[test]
fn two_empty_logs() {
    joins(&[], &[], &[]);
    assert_eq!(joined(&[], &[]), Ok(vec![]));
    for length in [0, 1, 10, 1000] {
        assert_eq!(call(&[], &[], length), ([0; 16], vec![7; length]));
    }
}

#[test]
fn one_empty_log() {
    let log = log(&[(1, 1), (3, 255)]);
    joins(&log, &[], &[wide(1, 0), wide(0, 0), wide(255, 0)].concat());
    joins(&[], &log, &[wide(0, 1), wide(0, 0), wide(0, 255)].concat());
}

#[test]
fn every_action() {
    for action in 0..32 {
        let log = log(&[(1, 1 << action)]);
        let mut one = wide(0, 0);
        one[2 + action / 8] = 1 << (action % 8);
        joins(&log, &[], &one);
        let mut two = wide(0, 0);
        two[6 + action / 8] = 1 << (action % 8);
        joins(&[], &log, &two);
        let both = with(&one, 6, &two[6..]);
        joins(&log, &log, &both);
        assert_eq!(joined(&log, &[]).unwrap()[0].one, 1 << action);
        assert_eq!(joined(&[], &log).unwrap()[0].two, 1 << action);
    }
}

#[test]
fn attempts_that_read_as_marks() {
    let log = [
        [0x54, 0x4c, 0x01, 0x00, 0x54, 0x4c, 0x54, 0x51],
        [0x54, 0x4c, 0x02, 0x00, 0x54, 0x51, 0x00, 0x00],
    ];
    let expected = [
        [0x54, 0x51, 0x54, 0x4c, 0x54, 0x51, 0, 0, 0, 0],
        [0x54, 0x51, 0x54, 0x51, 0x00, 0x00, 0, 0, 0, 0],
    ];
    joins(&log.concat(), &[], &expected.concat());
    // A period number that reads as the mark.
    let (reply, trace) = call(&[0x54, 0x4c, 0x54, 0x4c, 1, 0, 0, 0], &[], 195_400);
    assert_eq!(
        reply,
        [0, 0, 0, 0, 0x54, 0x4c, 0, 0, 0, 0, 0, 0, 0, 0, 0, 0]
    );
    assert_eq!(trace[195_390..], wide(1, 0));
}

#[test]
fn numbers_have_the_low_byte_first() {
    let log1 = [0x54, 0x4c, 0x00, 0x01, 5, 0, 0, 0];
    let log2 = [0x54, 0x4c, 0x02, 0x01, 6, 0, 0, 0];
    let (reply, trace) = call(&log1, &log2, 2581);
    assert_eq!(reply, [0, 0, 0, 0, 2, 1, 0, 0, 0, 0, 0, 0, 0, 0, 0, 0]);
    assert_eq!(trace[..2550], wide(0, 0).repeat(255));
    let expected = [wide(5, 0), wide(0, 0), wide(0, 6)];
    assert_eq!(trace[2550..2580], expected.concat());
    assert_eq!(trace[2580], 7);
}

/// The reply of 65,535 records.
const MOST: [u8; 16] = [0, 0, 0, 0, 255, 255, 0, 0, 0, 0, 0, 0, 0, 0, 0, 0];

#[test]
fn period_65535() {
    let last = [0x54, 0x4c, 255, 255, 9, 0, 0, 0];
    let second = log(&[(2, 4)]);
    let (reply, trace) = call(&last, &second, 655_353);
    assert_eq!(reply, MOST);
    assert_eq!(trace[..20], [wide(0, 0), wide(0, 4)].concat());
    assert_eq!(trace[20..655_340], wide(0, 0).repeat(65_532));
    assert_eq!(trace[655_340..655_350], wide(9, 0));
    assert_eq!(trace[655_350..], [7, 7, 7]);

    let (reply, trace) = call(&second, &last, 655_350);
    assert_eq!(reply, MOST);
    assert_eq!(trace[..20], [wide(0, 0), wide(4, 0)].concat());
    assert_eq!(trace[20..655_340], wide(0, 0).repeat(65_532));
    assert_eq!(trace[655_340..], wide(0, 9));

    refuses_in(&last, &second, 655_349, refused(16, 0));
    refuses_in(&second, &last, 655_349, refused(16, 0));
    refuses_in(&last, &last, 0, refused(16, 0));
    let (reply, trace) = call(&last, &last, 655_350);
    assert_eq!((reply, &trace[655_340..]), (MOST, wide(9, 9).as_slice()));
}

#[test]
fn logs_of_65535_records() {
    let full = from_one_to(65535);
    assert_eq!(full.len(), 524_280);
    let tried = with(&with(&full, 4, &[1]), 524_276, &[2]);
    let (reply, trace) = call(&tried, &full, 655_351);
    assert_eq!(reply, MOST);
    assert_eq!(trace[..10], wide(1, 0));
    assert_eq!(trace[10..655_340], wide(0, 0).repeat(65_533));
    assert_eq!(trace[655_340..655_350], wide(2, 0));
    assert_eq!(trace[655_350], 7);
    for (log1, log2) in [(&[][..], tried.as_slice()), (&full, &tried)] {
        let (reply, trace) = call(log1, log2, 655_350);
        assert_eq!(reply, MOST);
        assert_eq!(trace[..10], wide(0, 1));
        assert_eq!(trace[10..655_340], wide(0, 0).repeat(65_533));
        assert_eq!(trace[655_340..], wide(0, 2));
    }
    let (reply, trace) = call(&tried, &tried, 655_350);
    assert_eq!((reply, &trace[..10]), (MOST, wide(1, 1).as_slice()));
    refuses_in(&tried, &full, 655_349, refused(16, 0));
}

#[test]
fn logs_of_more_than_65535_records() {
    let full = from_one_to(65535);
    // No good number is left for one more record, but the length is tested before.
    for more in [quiet(&[65535]), quiet(&[1]), quiet(&[0]), vec![0; 8]] {
        bad_length(&[full.as_slice(), &more].concat());
    }
    bad_length(&[full.as_slice(), &full].concat());
    bad_length(&[0x54, 0x4c, 0, 0, 0, 0, 0, 0].repeat(65_536));
    bad_length(&vec![0; 524_288]);
    bad_length(&vec![0; 524_281]);
    bad_length(&vec![0; 524_289]);
}

#[test]
fn lengths_of_logs() {
    for records in [0, 1, 2, 65_534, 65_535] {
        assert_eq!(check_log_length(8 * records), Ok(()));
        for more in 1..8 {
            let refused = check_log_length(8 * records + more);
            assert_eq!(
                refused,
                Err(Refusal {
                    number: 14,
                    place: 0
                })
            );
        }
    }
    for records in [65_536, 65_537, 131_072, 4_294_967_296] {
        for more in 0..8 {
            let refused = check_log_length(8 * records + more);
            assert_eq!(
                refused,
                Err(Refusal {
                    number: 14,
                    place: 0
                })
            );
        }
    }
}

#[test]
fn a_length_that_is_no_multiple_of_8() {
    let good = quiet(&[1, 2, 3]);
    for length in 0..=24 {
        match length {
            0 => joins(&good[..length], &[], &[]),
            8 => joins(&good[..length], &[], &wide(0, 0)),
            16 => joins(&good[..length], &[], &wide(0, 0).repeat(2)),
            24 => joins(&good[..length], &[], &wide(0, 0).repeat(3)),
            _ => bad_length(&good[..length]),
        }
    }
    // Ten bytes of a period record.
    bad_length(&wide(0, 0));
    bad_length(&[0x54]);
    bad_length(&[0x54, 0x4c]);
}

#[test]
fn a_wrong_mark_in_each_byte() {
    let good = quiet(&[1, 2, 3]);
    for record in 0..3 {
        for byte in 0..=255 {
            let first = with(&good, 8 * record, &[byte]);
            match byte {
                0x54 => assert_eq!(first, good),
                _ => refuses_either(&first, 14, record as u32),
            }
            let second = with(&good, 8 * record + 1, &[byte]);
            match byte {
                0x4c => assert_eq!(second, good),
                _ => refuses_either(&second, 14, record as u32),
            }
        }
        // Exchanged, and the other records' marks.
        for mark in [
            [0x4c, 0x54],
            [0x54, 0x43],
            [0x54, 0x50],
            [0x54, 0x51],
            [0x54, 0x52],
            [0x54, 0x45],
            [0, 0],
        ] {
            refuses_either(&with(&good, 8 * record, &mark), 14, record as u32);
        }
    }
}

#[test]
fn no_other_byte_of_a_lone_record_is_refused() {
    for at in 2..8 {
        for byte in [0, 1, 0x4c, 0x54, 127, 128, 255] {
            let record = with(&[0x54, 0x4c, 1, 1, 0, 0, 0, 0], at, &[byte]);
            for (log1, log2) in [(record.as_slice(), &[][..]), (&[], &record)] {
                let (reply, _) = call(log1, log2, 655_350);
                assert_eq!(reply[..4], [0; 4], "{record:02x?}");
                assert_eq!(reply[4..6], record[2..4], "{record:02x?}");
            }
        }
    }
}

#[test]
fn period_0() {
    refuses_either(&quiet(&[0]), 14, 0);
    refuses_either(&log(&[(0, 1)]), 14, 0);
    refuses_either(&quiet(&[0, 1, 2]), 14, 0);
    refuses_either(&quiet(&[1, 0, 2]), 14, 1);
    refuses_either(&quiet(&[1, 2, 0]), 14, 2);
    // Never 15, though 0 isn't above any number.
    refuses_either(&quiet(&[0, 0]), 14, 0);
    refuses_either(&quiet(&[1, 1, 0]), 14, 2);
    // Only one byte of the number is 0.
    joins(&quiet(&[1]), &[], &wide(0, 0));
    let (reply, _) = call(&quiet(&[256]), &[], 2560);
    assert_eq!(reply, [0, 0, 0, 0, 0, 1, 0, 0, 0, 0, 0, 0, 0, 0, 0, 0]);
}

#[test]
fn the_first_bad_record_of_a_log() {
    let good = quiet(&[1, 2, 3, 4, 5]);
    let wrong_mark = [0x54, 0x50];
    let period_0 = [0x54, 0x4c, 0, 0];
    for first in 0..5 {
        for later in first..5 {
            let place = first as u32;
            let marks = with(&with(&good, 8 * later, &wrong_mark), 8 * first, &wrong_mark);
            refuses_either(&marks, 14, place);
            let zeros = with(&with(&good, 8 * later, &period_0), 8 * first, &period_0);
            refuses_either(&zeros, 14, place);
            let mark_first = with(&with(&good, 8 * later, &period_0), 8 * first, &wrong_mark);
            refuses_either(&mark_first, 14, place);
            let zero_first = with(&with(&good, 8 * later, &wrong_mark), 8 * first, &period_0);
            refuses_either(&zero_first, 14, place);
        }
    }
    refuses_either(&[0; 40], 14, 0);
}

#[test]
fn numbers_that_do_not_rise() {
    // Equal.
    refuses_either(&quiet(&[1, 1]), 15, 1);
    refuses_either(&quiet(&[1, 2, 2]), 15, 2);
    refuses_either(&quiet(&[5, 5, 6, 6]), 15, 1);
    refuses_either(&quiet(&[65535, 65535]), 15, 1);
    // The same record twice, and the same number with other attempts.
    refuses_either(&log(&[(1, 7), (1, 7)]), 15, 1);
    refuses_either(&log(&[(1, 7), (1, 8)]), 15, 1);
    // Falling.
    refuses_either(&quiet(&[2, 1]), 15, 1);
    refuses_either(&quiet(&[1, 3, 2]), 15, 2);
    refuses_either(&quiet(&[65535, 1]), 15, 1);
    refuses_either(&quiet(&[3, 2, 1]), 15, 1);
    // Above the one before it, but not above all before it.
    refuses_either(&quiet(&[5, 3, 4]), 15, 1);
    refuses_either(&quiet(&[1, 5, 3, 4, 6]), 15, 2);
    // The low byte falls where the number rises, and the other way round.
    let (reply, _) = call(&quiet(&[255, 256, 511, 512]), &[], 5120);
    assert_eq!(reply, [0, 0, 0, 0, 0, 2, 0, 0, 0, 0, 0, 0, 0, 0, 0, 0]);
    refuses_either(&quiet(&[256, 255]), 15, 1);
    refuses_either(&quiet(&[0x0201, 0x0102]), 15, 1);
    // Above 32,767 too.
    let (reply, _) = call(&quiet(&[32767, 32768]), &[], 327_680);
    assert_eq!(reply, [0, 0, 0, 0, 0, 128, 0, 0, 0, 0, 0, 0, 0, 0, 0, 0]);
    refuses_either(&quiet(&[32768, 32767]), 15, 1);
    // The numbers of one log say nothing of the other's.
    joins(&quiet(&[3]), &quiet(&[1]), &wide(0, 0).repeat(3));
}

#[test]
fn places_of_the_last_of_65535_records() {
    let full = from_one_to(65535);
    let wrong_mark = with(&full, 524_272, &[0x54, 0x50]);
    refuses(&wrong_mark, &[], refused(14, 65_534));
    refuses(&[], &wrong_mark, refused(14, 131_070));
    let period_0 = with(&full, 524_274, &[0, 0]);
    refuses(&period_0, &full, refused(14, 65_534));
    refuses(&full, &period_0, refused(14, 131_070));
    let equal = with(&full, 524_274, &[254, 255]);
    refuses(&equal, &[], refused(15, 65_534));
    refuses(&full, &equal, refused(15, 131_070));
    let (mut trace, mut reply) = ([7; 10], [7; 16]);
    assert_eq!(join(&[], &equal, &mut trace, &mut reply), 1);
    assert_eq!(trace, [7; 10]);
    // 131,070 is 01 FF FE.
    assert_eq!(
        reply,
        [15, 0, 0, 0, 0, 0, 0, 0, 0xfe, 0xff, 1, 0, 0, 0, 0, 0]
    );
}

/// A log of five records with these faults. The one that is tested first stands last: an equal
/// number at record 1, a wrong mark at record 3, a byte too few at the end.
fn faulty(length: bool, mark: bool, order: bool) -> Vec<u8> {
    let mut log = quiet(&[1, 2, 3, 4, 5]);
    if order {
        log[10] = 1;
    }
    if mark {
        log[25] = 0x4d;
    }
    if length {
        log.pop();
    }
    log
}

#[test]
fn the_order_of_all_tests() {
    for faults in 0..128 {
        let has = |fault: u32| faults >> fault & 1 == 1;
        let log1 = faulty(has(0), has(1), has(4));
        let log2 = faulty(has(2), has(3), has(5));
        let length = if has(6) { 49 } else { 50 };
        // The lowest fault is the one that is told.
        let reply = match (0..7).find(|fault| has(*fault)) {
            Some(0) => refused(14, 0),
            Some(1) => refused(14, 3),
            Some(2) => refused(14, 0),
            Some(3) => refused(14, 65_539),
            Some(4) => refused(15, 1),
            Some(5) => refused(15, 65_537),
            Some(_) => refused(16, 0),
            None => {
                let expected = (accepted(5), wide(0, 0).repeat(5));
                assert_eq!(call(&log1, &log2, length), expected);
                continue;
            }
        };
        refuses_in(&log1, &log2, length, reply);
    }
}

#[test]
fn a_log_before_the_other() {
    // Wherever the faults stand in their logs.
    let good = quiet(&[1, 2, 3]);
    let marked = |record: usize| with(&good, 8 * record, &[0x54, 0x50]);
    let equal = |record: usize| with(&good, 8 * record + 2, &[record as u8]);
    for one in 0..3 {
        for two in 0..3 {
            let place = one as u32;
            refuses(&marked(one), &marked(two), refused(14, place));
            refuses(&marked(one), &marked(two)[..23], refused(14, place));
            refuses(&marked(one)[..23], &marked(two), refused(14, 0));
            if two > 0 {
                refuses(&marked(one), &equal(two), refused(14, place));
                refuses(&equal(two), &marked(one), refused(14, 65_536 + place));
                refuses(&equal(two), &marked(one)[..23], refused(14, 0));
            }
            if one > 0 && two > 0 {
                refuses(&equal(one), &equal(two), refused(15, place));
            }
        }
    }
}

#[test]
fn a_refusal_of_a_log_goes_before_a_buffer_too_short() {
    for length in [0, 1, 9, 10] {
        refuses_in(&[0], &[], length, refused(14, 0));
        refuses_in(&quiet(&[0]), &quiet(&[9]), length, refused(14, 0));
        refuses_in(&quiet(&[9]), &quiet(&[0]), length, refused(14, 65_536));
        refuses_in(&quiet(&[9, 9]), &[], length, refused(15, 1));
        refuses_in(&[], &quiet(&[9, 9]), length, refused(15, 65_537));
        refuses_in(&quiet(&[9]), &[], length, refused(16, 0));
    }
}

#[test]
fn room_for_the_trace() {
    let log = log(&[(1, 1), (2, 2), (3, 3)]);
    let expected = [wide(1, 0), wide(2, 0), wide(3, 0)].concat();
    for length in 0..=60 {
        if length < 30 {
            refuses_in(&log, &[], length, refused(16, 0));
            refuses_in(&[], &log, length, refused(16, 0));
            continue;
        }
        let (reply, trace) = call(&log, &[], length);
        assert_eq!(reply, accepted(3));
        assert_eq!(trace[..30], expected);
        assert_eq!(trace[30..], vec![7; length - 30]);
    }
    let too_short = Err(Refusal {
        number: 16,
        place: 0,
    });
    for (records, length) in [(0, 0), (1, 10), (3, 30), (3, 31), (65_535, 655_350)] {
        assert_eq!(check_room(records, length), Ok(()));
    }
    for (records, length) in [(1, 0), (1, 9), (3, 29), (65_535, 655_349)] {
        assert_eq!(check_room(records, length), too_short);
    }
}

#[test]
fn later_bytes_of_any_value_stay() {
    let (shorter, log) = (log(&[(1, 5)]), log(&[(2, 1)]));
    for value in [0, 1, 0x51, 0x54, 255] {
        let mut trace = [value; 40];
        let mut reply = [value; 16];
        assert_eq!(join(&log, &log, &mut trace, &mut reply), 1);
        assert_eq!(reply, accepted(2));
        assert_eq!(trace[..20], [wide(0, 0), wide(1, 1)].concat());
        assert_eq!(trace[20..], [value; 20]);
        // What an earlier, longer trace left beyond a shorter one.
        assert_eq!(join(&[], &[], &mut trace, &mut reply), 1);
        assert_eq!(reply, accepted(0));
        assert_eq!(trace[..20], [wide(0, 0), wide(1, 1)].concat());
        assert_eq!(join(&shorter, &[], &mut trace, &mut reply), 1);
        assert_eq!(reply, accepted(1));
        assert_eq!(trace[..20], [wide(5, 0), wide(1, 1)].concat());
        assert_eq!(trace[20..], [value; 20]);
    }
}

#[test]
fn reply_areas() {
    let good = log(&[(1, 1), (2, 2)]);
    let trace_of_good = [wide(1, 0), wide(2, 0)].concat();
    let bad = [good.as_slice(), &good].concat();
    let stays = vec![7; 20];
    for (log1, log2, reply, expected) in [
        (good.as_slice(), &[][..], accepted(2), &trace_of_good),
        (&[], &[], accepted(0), &stays),
        (&good[..15], &[], refused(14, 0), &stays),
        (&[], &[0; 8], refused(14, 65_536), &stays),
        (&bad, &[], refused(15, 2), &stays),
        (&[0x54, 0x4c, 3, 0, 0, 0, 0, 0], &[], refused(16, 0), &stays),
    ] {
        for length in (0..=20).chain([2048]) {
            let (mut trace, mut area) = (vec![7; 20], vec![9; length]);
            let result = join(log1, log2, &mut trace, &mut area);
            if length < 16 {
                assert_eq!((result, trace), (0, vec![7; 20]));
                assert_eq!(area, vec![9; length]);
            } else {
                assert_eq!((result, &trace), (1, expected));
                assert_eq!(area[..16], reply);
                assert_eq!(area[16..], vec![9; length - 16]);
            }
        }
    }
}

/// A random good log with numbers up to 40 or so.
fn random_log(random: &mut Random) -> Vec<(u16, u32)> {
    let mut records = Vec::new();
    let mut number = 0;
    for _ in 0..random.below(9) {
        number += 1 + random.below(5) as u16;
        records.push((number, random.next() as u32));
    }
    records
}

/// The attempts that the records have for that number.
fn look_up(records: &[(u16, u32)], number: u16) -> u32 {
    let same = records.iter().find(|record| record.0 == number);
    same.map_or(0, |record| record.1)
}

/// The trace with the parties exchanged in each of its wide records.
fn exchanged(trace: &[u8]) -> Vec<u8> {
    let mut trace = trace.to_vec();
    for record in trace.chunks_mut(10) {
        record[2..].rotate_left(4);
    }
    trace
}

#[test]
fn exchanging_two_good_logs() {
    assert_eq!(
        exchanged(&[0x54, 0x51, 1, 2, 3, 4, 5, 6, 7, 8]),
        [0x54, 0x51, 5, 6, 7, 8, 1, 2, 3, 4]
    );
    let (mut longer, mut shorter, mut equal) = (0, 0, 0);
    for seed in 0..2000 {
        let mut random = Random(seed);
        let (one, two) = (random_log(&mut random), random_log(&mut random));
        let (log1, log2) = (log(&one), log(&two));
        let last = |records: &[(u16, u32)]| records.last().map_or(0, |record| record.0);
        let count = last(&one).max(last(&two));
        let bytes = 10 * usize::from(count);

        let (reply, trace) = call(&log1, &log2, 500);
        let (other_reply, other_trace) = call(&log2, &log1, 500);
        assert_eq!(reply, accepted(count as u8), "seed {seed}");
        assert_eq!(other_reply, reply, "seed {seed}");
        assert_eq!(other_trace[..bytes], exchanged(&trace[..bytes]));
        assert_eq!(trace[bytes..], vec![7; 500 - bytes]);
        assert_eq!(other_trace[bytes..], vec![7; 500 - bytes]);
        if bytes > 0 {
            refuses_in(&log1, &log2, bytes - 1, refused(16, 0));
            refuses_in(&log2, &log1, bytes - 1, refused(16, 0));
        }

        let expected: Vec<Period> = (1..=count)
            .map(|number| Period {
                one: look_up(&one, number),
                two: look_up(&two, number),
            })
            .collect();
        assert_eq!(read_trace(&trace[..bytes]).as_ref(), Ok(&expected));
        assert_eq!(joined(&log1, &log2), Ok(expected), "seed {seed}");
        match last(&one).cmp(&last(&two)) {
            std::cmp::Ordering::Less => shorter += 1,
            std::cmp::Ordering::Equal => equal += 1,
            std::cmp::Ordering::Greater => longer += 1,
        }
    }
    assert!(longer > 300 && shorter > 300 && equal > 50);
}

#[test]
fn exchanging_logs_by_hand() {
    let (log1, log2) = (log(&[(1, 1), (4, 2)]), log(&[(2, 3), (4, 4)]));
    let expected = [wide(1, 0), wide(0, 3), wide(0, 0), wide(2, 4)];
    joins(&log1, &log2, &expected.concat());
    let expected = [wide(0, 1), wide(3, 0), wide(0, 0), wide(4, 2)];
    joins(&log2, &log1, &expected.concat());
}

#[test]
fn a_joined_trace_runs() {
    // Repeat (duty 1 a): period 2 is lacking in log 2, which blames party 2.
    let log1 = log(&[(1, 1), (2, 1), (3, 1)]);
    let log2 = log(&[(1, 1), (3, 1)]);
    let image = repeated_duty();
    for (log1, log2, blame) in [(&log1, &log2, 2), (&log2, &log1, 1)] {
        let (reply, trace) = call(log1, log2, 30);
        assert_eq!(reply, accepted(3));
        let (mut state, mut reply) = ([0; 17], [7; 24]);
        assert_eq!(run(&image, &mut state, &trace, &mut reply), 1);
        assert_eq!(reply[..8], [0, 0, 0, 0, 4, 0, 0, 0]);
        assert_eq!(reply[16..], [blame, 0, 0, 0, 2, 0, 0, 0]);
    }
}
