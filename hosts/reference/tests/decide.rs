//! Decide, from document 02, "Stop reading once it is decided": whole replies, the order of its
//! tests, and what it doesn't look at.

mod common;

use common::*;
use reference::calls::{begin, check_trace_length, decide, run};
use reference::{Form, Refusal};

/// Repeat (duty 3 a), by hand: each party that doesn't try is blamed.
fn repeated_joint_duty() -> Vec<u8> {
    [duty_rows(), row(0, 0, 0), end(6, 3, 4)].concat()
}

/// Satisfied at period 3, whatever is tried.
fn third_period() -> Vec<u8> {
    let rows = [row(1, 0, 0), row(6, 0, 0), row(6, 1, 0), row(0, 0, 0)];
    [rows.concat(), end(2, 3, 3)].concat()
}

/// What decide writes into an area of 32 bytes. For an accepted call, "on a fresh state, run over
/// just the records read leaves the same outcome, blame and decision".
fn reply_of(image: &[u8], trace: &[u8]) -> [u8; 32] {
    let mut reply = [7; 32];
    assert_eq!(decide(image, trace, &mut reply), 1);
    if reply[..4] == [0; 4] {
        let read = u32::from_le_bytes(reply[24..28].try_into().unwrap()) as usize;
        let mut state = vec![9; 10 + image.len() / 8 - 1];
        let mut other = [7; 24];
        begin(image, &mut state, &mut other);
        run(image, &mut state, &trace[..6 * read], &mut other);
        assert_eq!(other[..4], [0; 4]);
        assert_eq!([state[0], state[1]], [reply[4], reply[16]]);
        assert_eq!(state[6..10], reply[20..24]);
    }
    reply
}

/// An accepted reply whose fields are all below 256.
fn accepted(outcome: u8, blame: u8, decision: u8, read: u8) -> [u8; 32] {
    let mut reply = [0; 32];
    (reply[4], reply[16], reply[20], reply[24]) = (outcome, blame, decision, read);
    reply
}

/// A refusal's reply with a place below 256.
fn refused(number: u8, place: u8) -> [u8; 32] {
    let mut reply = [0; 32];
    (reply[0], reply[8]) = (number, place);
    reply
}

/// The trace with that mark at the record of that number.
fn marked(trace: &[u8], number: usize, mark: [u8; 2]) -> Vec<u8> {
    let mut trace = trace.to_vec();
    trace[6 * number..6 * number + 2].copy_from_slice(&mark);
    trace
}

/// Marks that no period record has: the other records' among them.
const BAD_MARKS: [[u8; 2]; 8] = [
    [0x54, 0x4f],
    [0x55, 0x50],
    [0x50, 0x54],
    [0x54, 0x43],
    [0x54, 0x4c],
    [0x54, 0x52],
    [0x54, 0x45],
    [0, 0],
];

#[test]
fn a_violation_before_the_end() {
    let reply = [
        0, 0, 0, 0, // number
        2, 0, 0, 0, // outcome
        0, 0, 0, 0, 0, 0, 0, 0, // place
        2, 0, 0, 0, // blame
        3, 0, 0, 0, // decision period
        3, 0, 0, 0, // records read
        0, 0, 0, 0,
    ];
    assert_eq!(reply_of(&repeated_duty(), &trace(DECIDED)), reply);
    assert_eq!(accepted(2, 2, 3, 3), reply);
}

#[test]
fn every_blame() {
    let joint = repeated_joint_duty();
    assert_eq!(reply_of(&joint, &trace("a/a, -/a")), accepted(2, 1, 2, 2));
    assert_eq!(reply_of(&joint, &trace("a/a, a/-")), accepted(2, 2, 2, 2));
    assert_eq!(reply_of(&joint, &trace("a/a, -/-")), accepted(2, 3, 2, 2));
    let duty = repeated_duty();
    assert_eq!(reply_of(&duty, &trace("-/-, a/-")), accepted(2, 1, 1, 1));
    // A later breach adds no party.
    assert_eq!(reply_of(&joint, &trace("-/a, a/-")), accepted(2, 1, 1, 1));
}

#[test]
fn a_satisfaction_before_the_end_and_at_it() {
    let image = third_period();
    let records = trace("-/-, a/-, -/a, a/a");
    assert_eq!(reply_of(&image, &records), accepted(1, 0, 3, 3));
    assert_eq!(reply_of(&image, &records[..18]), accepted(1, 0, 3, 3));
    assert_eq!(reply_of(&image, &records[..12]), accepted(0, 0, 0, 2));
}

#[test]
fn undecided() {
    let reply = [
        0, 0, 0, 0, // number
        0, 0, 0, 0, // outcome
        0, 0, 0, 0, 0, 0, 0, 0, // place
        0, 0, 0, 0, // blame
        0, 0, 0, 0, // decision period
        4, 0, 0, 0, // records read
        0, 0, 0, 0,
    ];
    let records = trace("a/a, ab/a, a/ab, a/a");
    assert_eq!(reply_of(&repeated_duty(), &records), reply);
    assert_eq!(accepted(0, 0, 0, 4), reply);
}

#[test]
fn zero_records() {
    for image in [
        duty_image(),
        repeated_duty(),
        repeated_joint_duty(),
        third_period(),
    ] {
        assert_eq!(reply_of(&image, &[]), [0; 32]);
    }
}

#[test]
fn an_image_that_decides_at_period_1() {
    // True in period 1 only, so satisfied then.
    let first = [row(1, 0, 0), row(0, 0, 0), end(0, 1, 1)].concat();
    // Always true, and named by S, V1 and V2: violated.
    let always = [row(0, 0, 0), row(3, 0, 0), end(1, 1, 1)].concat();
    let quiet = trace("-/-, -/-");
    for (image, decided) in [
        (first, accepted(1, 0, 1, 1)),
        (always, accepted(2, 3, 1, 1)),
        (duty_image(), accepted(2, 1, 1, 1)),
    ] {
        assert_eq!(reply_of(&image, &[]), [0; 32]);
        assert_eq!(reply_of(&image, &quiet[..6]), decided);
        assert_eq!(reply_of(&image, &quiet), decided);
        assert_eq!(reply_of(&image, &marked(&quiet, 1, [0, 0])), decided);
        assert_eq!(reply_of(&image, &marked(&quiet, 0, [0, 0])), refused(11, 0));
    }
}

#[test]
fn the_period_before_the_first_is_false() {
    // What was always true a period ago satisfies: at period 2.
    let image = [row(0, 0, 0), row(3, 0, 0), row(6, 1, 0), end(2, 0, 0)].concat();
    assert_eq!(reply_of(&image, &trace("-/-")), accepted(0, 0, 0, 1));
    assert_eq!(
        reply_of(&image, &trace("-/-, -/-, -/-")),
        accepted(1, 0, 2, 2)
    );
}

#[test]
fn a_bad_mark_before_the_decision() {
    let reply = [
        11, 0, 0, 0, // number
        0, 0, 0, 0, // outcome
        1, 0, 0, 0, 0, 0, 0, 0, // place
        0, 0, 0, 0, // blame
        0, 0, 0, 0, // decision period
        0, 0, 0, 0, // records read
        0, 0, 0, 0,
    ];
    assert_eq!(refused(11, 1), reply);
    for mark in BAD_MARKS {
        for (number, reply) in [(0, refused(11, 0)), (1, reply)] {
            let bad = marked(&trace(DECIDED), number, mark);
            assert_eq!(reply_of(&repeated_duty(), &bad), reply);
            // The first of several is the place.
            let worse = marked(&marked(&bad, 2, mark), 4, mark);
            assert_eq!(reply_of(&repeated_duty(), &worse), reply);
        }
    }
}

#[test]
fn a_bad_mark_at_the_deciding_record() {
    for mark in BAD_MARKS {
        let bad = marked(&trace(DECIDED), 2, mark);
        assert_eq!(reply_of(&repeated_duty(), &bad), refused(11, 2));
        assert_eq!(reply_of(&repeated_duty(), &bad[..18]), refused(11, 2));
    }
}

#[test]
fn a_bad_mark_after_the_decision() {
    let decided = accepted(2, 2, 3, 3);
    for mark in BAD_MARKS {
        for number in [3, 4] {
            let bad = marked(&trace(DECIDED), number, mark);
            assert_eq!(reply_of(&repeated_duty(), &bad), decided);
        }
    }
    let mut bad = trace(DECIDED);
    for byte in [0, 255] {
        bad[18..].fill(byte);
        assert_eq!(reply_of(&repeated_duty(), &bad), decided);
    }
}

#[test]
fn a_bad_mark_where_nothing_is_decided() {
    let open = trace("a/a, a/a, a/a, a/a");
    for number in 0..4 {
        let bad = marked(&open, number, [0x54, 0x43]);
        assert_eq!(reply_of(&repeated_duty(), &bad), refused(11, number as u8));
    }
}

#[test]
fn a_bad_length_goes_before_marks_and_the_decision() {
    let good = trace(DECIDED);
    for number in 0..5 {
        let bad = marked(&good, number, [0, 0]);
        for records in [good.as_slice(), &bad] {
            for length in [1, 5, 7, 17, 19, 29] {
                assert_eq!(
                    reply_of(&repeated_duty(), &records[..length]),
                    refused(11, 0)
                );
            }
            let longer = [records, &[0x54]].concat();
            assert_eq!(reply_of(&repeated_duty(), &longer), refused(11, 0));
        }
    }
}

#[test]
fn a_bad_image_goes_before_all_else() {
    let bad_row = [row(0, 0, 0), row(3, 1, 0), end(9, 9, 9)].concat();
    let bad_end = [row(0, 0, 0), row(0, 0, 0), end(0, 2, 0)].concat();
    let too_long = [row(0, 0, 0).repeat(5953), end(0, 0, 0)].concat();
    let good = trace(DECIDED);
    let bad_marks = [0; 30];
    for records in [&[][..], &good, &good[..29], &bad_marks, &bad_marks[..29]] {
        for (image, place) in [
            (bad_row.as_slice(), 1),
            (&bad_end, 2),
            (&bad_row[..23], 0),
            (&bad_row[..8], 0),
            (&[], 0),
            (&too_long, 0),
        ] {
            assert_eq!(reply_of(image, records), refused(9, place));
        }
    }
}

#[test]
fn reply_areas() {
    let (good, bad) = (trace(DECIDED), [0; 30]);
    let (image, no_image) = (repeated_duty(), [0; 16]);
    for (image, records, reply) in [
        (image.as_slice(), good.as_slice(), accepted(2, 2, 3, 3)),
        (&image, &[], [0; 32]),
        (&image, &bad, refused(11, 0)),
        (&no_image, &bad[..29], refused(9, 0)),
    ] {
        for length in [0, 16, 24, 31] {
            let mut area = vec![7; length];
            assert_eq!(decide(image, records, &mut area), 0);
            assert_eq!(area, vec![7; length]);
        }
        for length in [32, 33, 2048] {
            let mut area = vec![7; length];
            assert_eq!(decide(image, records, &mut area), 1);
            assert_eq!(area[..32], reply);
            assert_eq!(area[32..], vec![7; length - 32]);
        }
    }
}

#[test]
fn fields_of_more_than_one_byte() {
    let mut records = trace("a/a").repeat(70_000);
    let image = repeated_duty();
    let mut reply = [0; 32];
    reply[24..28].copy_from_slice(&[0x70, 0x11, 1, 0]);
    assert_eq!(reply_of(&image, &records), reply);

    records.extend(trace("a/-, a/a"));
    reply[4] = 2;
    reply[16] = 2;
    reply[20..24].copy_from_slice(&[0x71, 0x11, 1, 0]);
    reply[24..28].copy_from_slice(&[0x71, 0x11, 1, 0]);
    assert_eq!(reply_of(&image, &records), reply);

    let mut reply = [0; 32];
    reply[0] = 11;
    reply[8..16].copy_from_slice(&[0x70, 0x11, 1, 0, 0, 0, 0, 0]);
    let bad = marked(&records, 70_000, [0x54, 0x43]);
    assert_eq!(reply_of(&image, &bad), reply);
}

#[test]
fn the_longest_image() {
    // True in period 1 only, then what each row before was a period ago.
    let mut rows = row(1, 0, 0);
    for number in 1..5951 {
        rows.extend(row(6, number - 1, 0));
    }
    let image = [rows, row(0, 0, 0), end(300, 5951, 5951)].concat();
    assert_eq!(image.len(), 47624);
    let mut reply = accepted(1, 0, 0, 0);
    reply[20..24].copy_from_slice(&[45, 1, 0, 0]);
    reply[24..28].copy_from_slice(&[45, 1, 0, 0]);
    assert_eq!(reply_of(&image, &trace("a/-").repeat(302)), reply);
    reply = [0; 32];
    reply[24..28].copy_from_slice(&[44, 1, 0, 0]);
    assert_eq!(reply_of(&image, &trace("a/-").repeat(300)), reply);
}

#[test]
fn lengths_of_traces() {
    let refusal = |number, place| Err(Refusal { number, place });
    for (form, bytes) in [(Form::Narrow, 6), (Form::Wide, 10)] {
        for records in [0, 1, 2, 4_294_967_294, 4_294_967_295] {
            assert_eq!(check_trace_length(form, bytes * records), Ok(()));
        }
        for records in [4_294_967_296, 4_294_967_297, 8_589_934_592] {
            let refused = check_trace_length(form, bytes * records);
            assert_eq!(refused, refusal(12, 4_294_967_295));
        }
        for records in [0, 1, 4_294_967_294, 4_294_967_295, 4_294_967_296] {
            for more in 1..bytes {
                let refused = check_trace_length(form, bytes * records + more);
                assert_eq!(refused, refusal(11, 0));
            }
        }
    }
}
