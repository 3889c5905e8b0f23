//! Document 02's "Thirty-two actions": both forms of period records in the calls and in `watch`,
//! the order of the tests within refusal 11, and actions 0 to 31.

mod common;

use common::*;
use reference::calls::{begin, decide, run, step};
use reference::contract::read;
use reference::image;
use reference::watch::watch;
use reference::{Form, Period, Refusal};

/// A narrow record without attempts.
const NARROW: [u8; 6] = [0x54, 0x50, 0, 0, 0, 0];
/// A wide record without attempts.
const WIDE: [u8; 10] = [0x54, 0x51, 0, 0, 0, 0, 0, 0, 0, 0];

/// Records read or periods taken, or a refusal's number and place.
type Answer = Result<u32, (u32, u64)>;

/// 11 at 0: a bad length, or a bad mark of the first record.
const REFUSED: Answer = Err((11, 0));

/// The answer of a reply; "every other field is 0" in a refusal.
fn answer(reply: &[u8], accepted: u32) -> Answer {
    let number = u32::from_le_bytes(reply[..4].try_into().unwrap());
    let place = u64::from_le_bytes(reply[8..16].try_into().unwrap());
    if number == 0 {
        assert_eq!(place, 0);
        return Ok(accepted);
    }
    assert_eq!(reply[4..8], [0; 4]);
    assert!(reply[16..].iter().all(|byte| *byte == 0));
    Err((number, place))
}

/// Undecided on every trace.
fn open_image() -> Vec<u8> {
    [row(0, 0, 0), end(0, 0, 0)].concat()
}

/// Step or run.
type Call = fn(&[u8], &mut [u8], &[u8], &mut [u8]) -> u32;

/// The periods that a call takes on the open image after three others.
fn taken(call: Call, bytes: &[u8]) -> Answer {
    let before = [0, 0, 3, 0, 0, 0, 0, 0, 0, 0, 0];
    let mut state = before;
    let mut reply = [7; 24];
    assert_eq!(call(&open_image(), &mut state, bytes, &mut reply), 1);
    let answer = answer(&reply, u32::from(state[2]) - 3);
    if answer.is_err() {
        assert_eq!(state, before);
    }
    answer
}

fn step_takes(bytes: &[u8]) -> Answer {
    taken(step, bytes)
}

/// What run takes and decide reads where nothing is decided.
fn trace_has(bytes: &[u8]) -> Answer {
    let taken = taken(run, bytes);
    assert_eq!(decide_reads(&open_image(), bytes), taken, "{bytes:02x?}");
    taken
}

fn decide_reads(image: &[u8], trace: &[u8]) -> Answer {
    let mut reply = [7; 32];
    assert_eq!(decide(image, trace, &mut reply), 1);
    answer(
        &reply,
        u32::from_le_bytes(reply[24..28].try_into().unwrap()),
    )
}

/// The bytes with others from `at` on.
fn with(bytes: &[u8], at: usize, others: &[u8]) -> Vec<u8> {
    let mut bytes = bytes.to_vec();
    bytes[at..at + others.len()].copy_from_slice(others);
    bytes
}

#[test]
fn forms() {
    assert_eq!(Form::Narrow.mark(), [0x54, 0x50]);
    assert_eq!(Form::Wide.mark(), [0x54, 0x51]);
    assert_eq!(Form::Narrow.mask_bytes(), 2);
    assert_eq!(Form::Wide.mask_bytes(), 4);
    assert_eq!(Form::Narrow.record_bytes(), 6);
    assert_eq!(Form::Wide.record_bytes(), 10);
    for mark in 0..=65535u16 {
        let expected = match mark {
            0x5450 => Some(Form::Narrow),
            0x5451 => Some(Form::Wide),
            _ => None,
        };
        assert_eq!(Form::of_mark(&mark.to_be_bytes()), expected);
    }
    assert_eq!(Form::of_mark(&[0x54]), None);
    assert_eq!(Form::of_mark(&[0x54, 0x51, 0]), Some(Form::Wide));
    assert_eq!(Form::ALL.map(Form::other), [Form::Wide, Form::Narrow]);
}

#[test]
fn periods_and_their_records() {
    let wide = [0x54, 0x51, 1, 2, 4, 0x80, 8, 0x10, 0x20, 0x40];
    let period = Period {
        one: 0x8004_0201,
        two: 0x4020_1008,
    };
    assert_eq!(Period::of_record(Form::Wide, &wide), period);
    assert_eq!(period.record(Form::Wide), wide);
    let narrow = [0x54, 0x50, 1, 2, 8, 0x10];
    let lower = Period {
        one: 0x0201,
        two: 0x1008,
    };
    assert_eq!(Period::of_record(Form::Narrow, &narrow), lower);
    assert_eq!(lower.record(Form::Narrow), narrow);
    assert_eq!(period.record(Form::Narrow), narrow);
    assert_eq!(
        lower.record(Form::Wide),
        [0x54, 0x51, 1, 2, 0, 0, 8, 0x10, 0, 0]
    );
}

#[test]
fn actions_of_contracts() {
    let with_action = [(1, 1), (1, 2), (1, 3), (2, 1), (3, 2), (17, 1), (18, 2)];
    let without_party = [(19, 0), (20, 0)];
    for (kind, party) in with_action.into_iter().chain(without_party) {
        for action in 0..=255 {
            let bytes = record(kind, party, action);
            let number = read(&bytes).err().map(|refusal| refusal.number);
            match action {
                // A lone expression is no contract.
                0..=31 if kind >= 16 => assert_eq!(number, Some(6)),
                0..=31 => assert_eq!(number, None),
                _ => assert_eq!(number, Some(4), "kind {kind}, action {action}"),
            }
        }
    }
    for action in 0..=255 {
        let taken = read(&deadline_record(1, action, 2)).is_ok();
        assert_eq!(taken, action <= 31);
    }
    for kind in [4, 5, 6, 7, 8, 9, 16, 21, 22, 23] {
        for action in 1..=255 {
            let refusal = read(&record(kind, 0, action)).unwrap_err();
            assert_eq!((refusal.number, refusal.place), (4, 0));
        }
    }
    let refusal = read(&contract(&[(1, 1, 31), (1, 1, 32), (7, 0, 0)])).unwrap_err();
    assert_eq!((refusal.number, refusal.place), (4, 1));
}

#[test]
fn clauses_of_the_upper_actions() {
    let records = [
        record(17, 1, 31),
        record(18, 2, 30),
        record(22, 0, 0),
        record(19, 0, 29),
        record(21, 0, 0),
        record(1, 1, 28),
        record(8, 0, 0),
        record(2, 2, 27),
        record(4, 0, 0),
        record(3, 1, 26),
        record(5, 0, 0),
        deadline_record(2, 16, 15),
        record(6, 0, 0),
        record(20, 0, 17),
        record(9, 0, 0),
        record(1, 3, 18),
        record(4, 0, 0),
    ];
    let expression = seq(or(tries(1, 31), idle(2, 30)), succeeds(29));
    let left = both(when(expression, duty(1, 28)), ban(2, 27));
    let repaired = repair(then(left, power(1, 26)), deadline(2, 16, 15));
    let clause = both(until(repaired, fails(17)), joint_duty(18));
    assert_eq!(read(&records.concat()), Ok(clause));
}

#[test]
fn actions_of_images() {
    let refusal = |place| Err(Refusal { number: 9, place });
    for party in [1, 2] {
        for action in 0..=65535 {
            let bytes = [row(0, 0, 0), row(2, party, action), end(1, 0, 0)].concat();
            let taken = image::read(&bytes).map(|_| ());
            let expected = if action <= 31 { Ok(()) } else { refusal(1) };
            assert_eq!(taken, expected, "action {action}");
        }
    }
    let bad = [row(2, 1, 31), row(2, 2, 32), end(0, 0, 0)].concat();
    for trace in [&[][..], &WIDE, &WIDE[..9], &WIDE[..1], &[0; 10]] {
        assert_eq!(decide_reads(&bad, trace), Err((9, 1)));
    }
}

/// Whether the party tries the action in a record, by its row in step, run and decide.
fn tried(party: u16, action: u16, record: &[u8]) -> bool {
    // The row satisfies.
    let image = [row(2, party, action), row(0, 0, 0), end(0, 1, 1)].concat();
    let mut outcomes = Vec::new();
    for call in [step, run] {
        let (mut state, mut reply) = ([0; 12], [7; 24]);
        assert_eq!(call(&image, &mut state, record, &mut reply), 1);
        assert_eq!(answer(&reply, 1), Ok(1));
        assert_eq!(state[10], state[0]);
        outcomes.push(state[0]);
    }
    let mut reply = [7; 32];
    assert_eq!(decide(&image, record, &mut reply), 1);
    assert_eq!(answer(&reply, 1), Ok(1));
    assert_eq!(outcomes, [reply[4]; 2]);
    reply[4] == 1
}

/// "Bit a is set when the party tries action a", with so many bytes for each party.
fn every_bit(quiet: &[u8], mask_bytes: usize) {
    let actions = 0..8 * mask_bytes;
    for (party, action) in actions.flat_map(|action| [(1, action), (2, action)]) {
        let at = 2 + mask_bytes * (party - 1) + action / 8;
        let tries = |record: &[u8]| tried(party as u16, action as u16, record);
        let mut record = quiet.to_vec();
        assert!(!tries(&record));
        record[at] = 1 << (action % 8);
        assert!(tries(&record));
        record[2..].fill(255);
        assert!(tries(&record));
        record[at] -= 1 << (action % 8);
        assert!(!tries(&record));
    }
}

#[test]
fn every_bit_of_a_record() {
    every_bit(&NARROW, 2);
    every_bit(&WIDE, 4);
}

#[test]
fn a_narrow_record_never_tries_the_upper_actions() {
    for (party, action) in (16..32).flat_map(|action| [(1, action), (2, action)]) {
        assert!(!tried(party, action, &[0x54, 0x50, 255, 255, 255, 255]));
    }
}

#[test]
fn lengths_of_the_narrow_form() {
    let records = NARROW.repeat(4);
    for length in 0..=21 {
        let (one, several) = match length {
            0 => (REFUSED, Ok(0)),
            6 => (Ok(1), Ok(1)),
            12 => (REFUSED, Ok(2)),
            18 => (REFUSED, Ok(3)),
            _ => (REFUSED, REFUSED),
        };
        assert_eq!(step_takes(&records[..length]), one, "length {length}");
        assert_eq!(trace_has(&records[..length]), several, "length {length}");
    }
}

#[test]
fn lengths_of_the_wide_form() {
    let records = WIDE.repeat(3);
    for length in 0..=21 {
        let (one, several) = match length {
            0 => (REFUSED, Ok(0)),
            10 => (Ok(1), Ok(1)),
            20 => (REFUSED, Ok(2)),
            _ => (REFUSED, REFUSED),
        };
        assert_eq!(step_takes(&records[..length]), one, "length {length}");
        assert_eq!(trace_has(&records[..length]), several, "length {length}");
    }
}

#[test]
fn lengths_after_another_first_mark() {
    for mark in [
        [0, 0],
        [0x54, 0x4f],
        [0x54, 0x52],
        [0x50, 0x54],
        [0x55, 0x51],
    ] {
        for records in [NARROW.repeat(4), WIDE.repeat(3)] {
            let records = with(&records, 0, &mark);
            for length in 1..=21 {
                assert_eq!(step_takes(&records[..length]), REFUSED);
                assert_eq!(trace_has(&records[..length]), REFUSED);
            }
        }
    }
}

#[test]
fn lengths_go_by_the_first_mark_alone() {
    // The mark of the one form, then those of the other where its records would begin.
    let wide = with(&NARROW.repeat(4), 0, &[0x54, 0x51]);
    let narrow = with(&WIDE.repeat(3), 0, &[0x54, 0x50]);
    for length in 1..=21 {
        let (one, several) = match length {
            10 => (Ok(1), Ok(1)),
            20 => (REFUSED, Err((11, 1))),
            _ => (REFUSED, REFUSED),
        };
        assert_eq!(step_takes(&wide[..length]), one, "length {length}");
        assert_eq!(trace_has(&wide[..length]), several, "length {length}");
        let (one, several) = match length {
            6 => (Ok(1), Ok(1)),
            12 | 18 => (REFUSED, Err((11, 1))),
            _ => (REFUSED, REFUSED),
        };
        assert_eq!(step_takes(&narrow[..length]), one, "length {length}");
        assert_eq!(trace_has(&narrow[..length]), several, "length {length}");
    }
}

#[test]
fn a_damaged_mark_at_every_place() {
    for record in [&NARROW[..], &WIDE] {
        // Four records of a form are no whole number of the other's.
        let trace = record.repeat(4);
        assert_eq!(trace_has(&trace), Ok(4));
        for (number, at) in (0..4).flat_map(|number| [(number, 0), (number, 1)]) {
            let at = number * record.len() + at;
            for byte in (0..=255).filter(|byte| *byte != trace[at]) {
                let bad = with(&trace, at, &[byte]);
                assert_eq!(trace_has(&bad), Err((11, number as u64)), "{bad:02x?}");
            }
        }
        for at in [0, 1] {
            for byte in (0..=255).filter(|byte| *byte != record[at]) {
                assert_eq!(step_takes(&with(record, at, &[byte])), Err((11, 0)));
            }
        }
    }
}

#[test]
fn a_first_mark_of_the_other_form() {
    // 30 bytes are whole records of both forms, so the first later mark is at fault.
    let wide = with(&NARROW.repeat(5), 0, &[0x54, 0x51]);
    assert_eq!(trace_has(&wide), Err((11, 1)));
    let narrow = with(&WIDE.repeat(3), 0, &[0x54, 0x50]);
    assert_eq!(trace_has(&narrow), Err((11, 1)));
    // With that mark good it is the next.
    let wide = with(&wide, 10, &[0x54, 0x51]);
    assert_eq!(trace_has(&wide), Err((11, 2)));
    let narrow = with(&narrow, 6, &[0x54, 0x50]);
    assert_eq!(trace_has(&narrow), Err((11, 2)));
}

#[test]
fn a_later_record_of_the_other_form() {
    for number in 1..5 {
        let narrow = with(&NARROW.repeat(5), 6 * number, &[0x54, 0x51]);
        let wide = with(&WIDE.repeat(5), 10 * number, &[0x54, 0x50]);
        for trace in [narrow, wide] {
            assert_eq!(trace_has(&trace), Err((11, number as u64)));
            // The first of several.
            let worse = with(&trace, trace.len() / 5 * 4, &[0, 0]);
            assert_eq!(trace_has(&worse), Err((11, number as u64)));
        }
    }
    // Whole records of both forms.
    for (narrow, wide, expected) in [
        (1, 3, Err((11, 1))),
        (2, 3, Err((11, 2))),
        (3, 3, Err((11, 3))),
        (1, 1, Err((11, 0))),
        (5, 1, Err((11, 0))),
        (5, 5, Err((11, 0))),
    ] {
        let trace = [NARROW.repeat(narrow), WIDE.repeat(wide)].concat();
        assert_eq!(trace_has(&trace), expected, "{narrow} and {wide}");
    }
    for (wide, narrow, expected) in [
        (1, 5, Err((11, 1))),
        (2, 5, Err((11, 2))),
        (3, 5, Err((11, 3))),
        (1, 1, Err((11, 0))),
        (3, 3, Err((11, 0))),
    ] {
        let trace = [WIDE.repeat(wide), NARROW.repeat(narrow)].concat();
        assert_eq!(trace_has(&trace), expected, "{wide} and {narrow}");
    }
}

#[test]
fn the_first_record_fixes_the_form_and_not_the_last() {
    // Attempts that read as the mark of the last ten bytes, or six.
    let narrow = with(&NARROW.repeat(5), 20, &[0x54, 0x51]);
    assert_eq!(trace_has(&narrow), Ok(5));
    let wide = with(&WIDE.repeat(3), 24, &[0x54, 0x50]);
    assert_eq!(trace_has(&wide), Ok(3));
    // And at every place where the other form's records would begin.
    let narrow = with(&narrow, 10, &[0x54, 0x51]);
    assert_eq!(trace_has(&narrow), Ok(5));
    let wide = with(&with(&wide, 6, &[0x54, 0x50]), 18, &[0x54, 0x50]);
    assert_eq!(trace_has(&wide), Ok(3));
}

#[test]
fn both_forms_in_steps() {
    let image = repeated_duty();
    let (mut state, mut reply) = ([9; 17], [7; 24]);
    begin(&image, &mut state, &mut reply);
    let records: [(&[u8], Answer, u8); 12] = [
        (&[0x54, 0x51, 1, 0, 0, 0, 1, 0, 0, 0], Ok(1), 0),
        (&[0x54, 0x50, 1, 0, 1, 0], Ok(2), 0),
        // Of a length that the other form has.
        (&[0x54, 0x50, 1, 0, 1, 0, 0, 0, 0, 0], Err((11, 0)), 0),
        (&[0x54, 0x51, 1, 0, 0, 0], Err((11, 0)), 0),
        (&[], Err((11, 0)), 0),
        (&[0x54, 0x50, 1, 0, 1, 0], Ok(3), 0),
        (&[0x54], Err((11, 0)), 0),
        (&[0x54, 0x51, 1, 0, 0, 0, 1, 0, 0], Err((11, 0)), 0),
        // Party 2 tries action 16 in both, and action 0 in the first alone.
        (&[0x54, 0x51, 255, 0, 0, 0, 255, 0, 1, 0], Ok(4), 0),
        (&[0x54, 0x51, 1, 0, 0, 0, 0, 0, 1, 0], Ok(5), 2),
        (&[0x54, 0x50, 0, 0, 0, 0], Ok(6), 4),
        (&[0x54, 0x51, 0, 0, 0, 0, 0, 0, 0, 0], Ok(7), 4),
    ];
    for (record, expected, verdict) in records {
        let before = state;
        assert_eq!(step(&image, &mut state, record, &mut reply), 1);
        assert_eq!(answer(&reply, state[2].into()), expected, "{record:02x?}");
        assert_eq!(reply[4], verdict, "{record:02x?}");
        if expected.is_err() {
            assert_eq!(state, before);
        }
    }
    assert_eq!(state[..10], [2, 2, 7, 0, 0, 0, 5, 0, 0, 0]);
}

#[test]
fn counts() {
    let image = open_image();
    let mut reply = [7; 24];
    let mut full = [0, 0, 255, 255, 255, 255, 0, 0, 0, 0, 0];
    for record in [&NARROW[..], &WIDE] {
        step(&image, &mut full, record, &mut reply);
        assert_eq!(answer(&reply, 0), Err((12, 0)));
        step(&image, &mut full, &record[1..], &mut reply);
        assert_eq!(answer(&reply, 0), Err((11, 0)));
    }
    run(&image, &mut full, &[], &mut reply);
    assert_eq!(answer(&reply, 0), Ok(0));
    for record in [&NARROW[..], &WIDE] {
        let before = with(&full, 2, &[253]);
        let mut state = before.clone();
        for (trace, expected) in [
            (record.repeat(3), Err((12, 2))),
            (record.repeat(5), Err((12, 2))),
            // All of 11 goes before 12.
            (
                with(&record.repeat(4), 3 * record.len(), &[0]),
                Err((11, 3)),
            ),
            (record.repeat(4)[1..].to_vec(), Err((11, 0))),
        ] {
            run(&image, &mut state, &trace, &mut reply);
            assert_eq!(answer(&reply, 0), expected);
            assert_eq!(state, before);
        }
        run(&image, &mut state, &record.repeat(2), &mut reply);
        assert_eq!(answer(&reply, 0), Ok(0));
        assert_eq!(state, full);
    }
}

#[test]
fn images_and_states_go_before_periods() {
    let image = open_image();
    let unsound = [3, 0, 1, 0, 0, 0, 1, 0, 0, 0, 0];
    let mut reply = [7; 24];
    for bytes in [&[][..], &WIDE, &WIDE[..9], &WIDE[..1], &[0; 10]] {
        for call in [step, run] {
            let mut state = unsound;
            assert_eq!(call(&image, &mut state, bytes, &mut reply), 1);
            assert_eq!((answer(&reply, 0), state), (Err((10, 0)), unsound));
            assert_eq!(call(&image[..15], &mut state, bytes, &mut reply), 1);
            assert_eq!((answer(&reply, 0), state), (Err((9, 0)), unsound));
        }
    }
}

#[test]
fn decide_on_a_wide_trace() {
    let image = repeated_duty();
    let trace = trace_in(Form::Wide, DECIDED);
    assert_eq!(trace.len(), 50);
    let mut reply = [7; 32];
    assert_eq!(decide(&image, &trace, &mut reply), 1);
    let expected = [
        0, 0, 0, 0, // number
        2, 0, 0, 0, // outcome
        0, 0, 0, 0, 0, 0, 0, 0, // place
        2, 0, 0, 0, // blame
        3, 0, 0, 0, // decision period
        3, 0, 0, 0, // records read
        0, 0, 0, 0,
    ];
    assert_eq!(reply, expected);
    let (mut state, mut other) = ([0; 17], [7; 24]);
    run(&image, &mut state, &trace[..30], &mut other);
    assert_eq!(state[..10], [2, 2, 3, 0, 0, 0, 3, 0, 0, 0]);
    assert_eq!(decide_reads(&image, &trace[..30]), Ok(3));
    assert_eq!(decide_reads(&image, &trace[..20]), Ok(2));
}

#[test]
fn marks_that_decide_looks_at() {
    let image = repeated_duty();
    for (form, length) in [(Form::Narrow, 6), (Form::Wide, 10)] {
        let good = trace_in(form, DECIDED);
        let other = match form {
            Form::Narrow => [0x54, 0x51],
            Form::Wide => [0x54, 0x50],
        };
        for mark in [other, [0x54, 0x52], [0, 0]] {
            for number in 1..5 {
                let bad = with(&good, length * number, &mark);
                let expected = match number {
                    1 | 2 => Err((11, number as u64)),
                    _ => Ok(3),
                };
                assert_eq!(decide_reads(&image, &bad), expected, "{bad:02x?}");
                // Run looks at all of them.
                let (mut state, mut reply) = ([0; 17], [7; 24]);
                run(&image, &mut state, &bad, &mut reply);
                assert_eq!(answer(&reply, 0), Err((11, number as u64)));
            }
        }
        // The length is tested all the same.
        for less in 1..length {
            let cut = &good[..5 * length - less];
            assert_eq!(decide_reads(&image, cut), Err((11, 0)));
        }
        for byte in [0, 255] {
            let mut bad = good.clone();
            bad[3 * length..].fill(byte);
            assert_eq!(decide_reads(&image, &bad), Ok(3));
        }
    }
    // Whole records of the other form after the decision, of a good length and a bad one.
    let early = with(&WIDE.repeat(2), 2, &[1]);
    let wide_then_narrow = [early.clone(), NARROW.repeat(5)].concat();
    assert_eq!(decide_reads(&image, &wide_then_narrow), Ok(1));
    let wide_then_narrow = [early, NARROW.repeat(4)].concat();
    assert_eq!(decide_reads(&image, &wide_then_narrow), Err((11, 0)));
    let narrow_then_wide = [NARROW.repeat(2), WIDE.repeat(3)].concat();
    assert_eq!(decide_reads(&image, &narrow_then_wide), Ok(1));
    let narrow_then_wide = [NARROW.repeat(2), WIDE.repeat(2)].concat();
    assert_eq!(decide_reads(&image, &narrow_then_wide), Err((11, 0)));
}

/// A random good image on the sixteen actions from `lowest` on, which make its only difference to
/// another of the same numbers.
fn random_image(random: &mut Random, lowest: u16) -> Vec<u8> {
    let count = 3 + random.below(12);
    let mut rows = Vec::new();
    for number in 0..count {
        let (one, two) = (random.next() as u16, random.next() as u16);
        let (x, y) = match number as u16 {
            0 => (0, 0),
            number => (one % number, two % number),
        };
        let kind = random.below(if number == 0 { 3 } else { 9 });
        rows.extend(match kind {
            0 | 1 => row(kind as u8, 0, 0),
            3 => row(3, x, 0),
            4 => row(4, x, y),
            5 => row(5, x, y),
            6 => row(6, one % count as u16, 0),
            _ => row(2, 1 + one % 2, lowest + two % 16),
        });
    }
    let mut named = || random.below(count) as u16;
    [rows, end(named(), named(), named())].concat()
}

/// Random attempts on the sixteen lower actions.
fn random_periods(random: &mut Random) -> Vec<Period> {
    let length = random.below(9);
    (0..length)
        .map(|_| Period {
            one: random.below(65536) as u32,
            two: random.below(65536) as u32,
        })
        .collect()
}

fn records(form: Form, periods: &[Period]) -> Vec<u8> {
    periods
        .iter()
        .flat_map(|period| period.record(form))
        .collect()
}

/// State and reply of run on a fresh state, and the reply of decide.
fn whole(image: &[u8], trace: &[u8]) -> (Vec<u8>, [u8; 24], [u8; 32]) {
    let (mut state, mut reply, mut decided) = (vec![0; 9 + image.len() / 8], [7; 24], [7; 32]);
    assert_eq!(run(image, &mut state, trace, &mut reply), 1);
    assert_eq!(decide(image, trace, &mut decided), 1);
    assert_eq!(reply[..4], [0; 4]);
    assert_eq!(decided[..4], [0; 4]);
    (state, reply, decided)
}

#[test]
fn the_same_attempts_in_both_forms() {
    let (mut early, mut late, mut open) = (0, 0, 0);
    for seed in 0..4000 {
        let mut random = Random(seed);
        let lowest = 8 * random.below(3) as u16;
        let image = random_image(&mut random, lowest);
        let periods = random_periods(&mut random);
        let narrow = whole(&image, &records(Form::Narrow, &periods));
        let wide = whole(&image, &records(Form::Wide, &periods));
        assert_eq!(narrow, wide, "seed {seed}");

        // From step to step, and from run to run.
        let mut form = || [Form::Narrow, Form::Wide][random.below(2) as usize];
        let (mut state, mut reply) = (vec![0; narrow.0.len()], [7; 24]);
        run(&image, &mut state, &[], &mut reply);
        for period in &periods {
            step(&image, &mut state, &period.record(form()), &mut reply);
        }
        assert_eq!((&state, reply), (&narrow.0, narrow.1), "seed {seed}");
        let (first, rest) = periods.split_at(periods.len() / 2);
        state.fill(0);
        run(&image, &mut state, &records(form(), first), &mut reply);
        run(&image, &mut state, &records(form(), rest), &mut reply);
        assert_eq!((state, reply), (narrow.0, narrow.1), "seed {seed}");

        match narrow.1[20] {
            0 => open += 1,
            1 => early += 1,
            _ => late += 1,
        }
    }
    assert!(early > 300 && late > 300 && open > 300);
}

#[test]
fn the_upper_actions_work_as_the_lower() {
    for seed in 0..4000 {
        let (mut random, mut again) = (Random(seed), Random(seed));
        let lower = random_image(&mut random, 0);
        let upper = random_image(&mut again, 16);
        let periods = random_periods(&mut random);
        let raised: Vec<Period> = periods
            .iter()
            .map(|period| Period {
                one: period.one << 16,
                two: period.two << 16,
            })
            .collect();
        let expected = whole(&lower, &records(Form::Narrow, &periods));
        let found = whole(&upper, &records(Form::Wide, &raised));
        assert_eq!(found, expected, "seed {seed}");
        // In the lower half of a narrow record they are other actions.
        let idle = vec![Period { one: 0, two: 0 }; periods.len()];
        let found = whole(&upper, &records(Form::Narrow, &periods));
        let expected = whole(&upper, &records(Form::Wide, &idle));
        assert_eq!(found, expected, "seed {seed}");
    }
}

#[test]
fn literals_of_the_upper_actions() {
    // p, q and F are actions 15, 16 and 31.
    for (action, tried, other) in [(31, "F", "p"), (16, "q", "a"), (15, "p", "F")] {
        let period = |one: bool, two: bool| {
            let attempts = |tries| if tries { tried } else { other };
            format!("{}/{}", attempts(one), attempts(two))
        };
        let (both_try, neither) = (period(true, true), period(false, false));
        let (one_tries, two_tries) = (period(true, false), period(false, true));
        decides(&duty(1, action), &both_try, satisfied(1));
        decides(&duty(1, action), &two_tries, violated(1, 1));
        decides(&duty(1, action), &one_tries, violated(1, 2));
        decides(&duty(2, action), &neither, violated(1, 2));
        decides(&joint_duty(action), &both_try, satisfied(1));
        decides(&joint_duty(action), &neither, violated(1, 3));
        decides(&ban(1, action), &both_try, violated(1, 1));
        decides(&ban(1, action), &one_tries, satisfied(1));
        decides(&power(1, action), &one_tries, violated(1, 2));
        decides(&power(1, action), &two_tries, satisfied(1));
        let late = format!("{neither}, {both_try}");
        decides(&deadline(1, action, 2), &late, satisfied(2));
        let missed = format!("{both_try}, {neither}, {one_tries}");
        let again = repeat(deadline(1, action, 2));
        decides(&again, &missed, violated(3, 2));
    }
}

#[test]
fn expressions_of_the_upper_actions() {
    let until_tried = until(repeat(duty(1, 16)), seq(star(any()), tries(1, 31)));
    decides(&until_tried, "q/q, q/qF", OPEN);
    decides(&until_tried, "q/q, qF/q", satisfied(2));
    decides(&until_tried, "q/q, F/q", violated(2, 1));
    decides(&when(idle(2, 31), duty(1, 31)), "F/F", satisfied(1));
    decides(&when(idle(2, 31), duty(1, 31)), "F/p, F/F", satisfied(2));
    decides(&when(succeeds(31), duty(1, 30)), "F/F, E/-", violated(2, 2));
    decides(&when(succeeds(31), duty(1, 30)), "F/E", satisfied(1));
    decides(&when(fails(31), duty(1, 30)), "F/E, E/E", satisfied(2));
    decides(&when(fails(31), duty(1, 30)), "F/F", satisfied(1));
}

const EXAMPLE: &str = "1 open 0\n2 open 0\n3 broken 2\n4 broken-after 2\ndecided 3\n";

#[test]
fn the_example_of_watch_in_the_wide_form() {
    let contract = [
        [0x54, 0x43, 0x01, 0x01, 0x00, 0x00],
        [0x54, 0x43, 0x01, 0x01, 0x01, 0x00],
        [0x54, 0x43, 0x06, 0x00, 0x00, 0x00],
        [0x54, 0x43, 0x07, 0x00, 0x00, 0x00],
    ];
    let trace = [
        [0x54, 0x51, 0x01, 0, 0, 0, 0x01, 0, 0, 0],
        [0x54, 0x51, 0x00, 0, 0, 0, 0x00, 0, 0, 0],
        [0x54, 0x51, 0x02, 0, 0, 0, 0x00, 0, 0, 0],
        [0x54, 0x51, 0x01, 0, 0, 0, 0x01, 0, 0, 0],
    ];
    assert_eq!(
        watch(&[contract.concat(), trace.concat()].concat()),
        EXAMPLE
    );
}

#[test]
fn the_example_of_watch_on_actions_30_and_31() {
    let contract = [
        [0x54, 0x43, 0x01, 0x01, 0x1e, 0x00],
        [0x54, 0x43, 0x01, 0x01, 0x1f, 0x00],
        [0x54, 0x43, 0x06, 0x00, 0x00, 0x00],
        [0x54, 0x43, 0x07, 0x00, 0x00, 0x00],
    ];
    let trace = [
        [0x54, 0x51, 0, 0, 0, 0x40, 0, 0, 0, 0x40],
        [0x54, 0x51, 0, 0, 0, 0x00, 0, 0, 0, 0x00],
        [0x54, 0x51, 0, 0, 0, 0x80, 0, 0, 0, 0x00],
        [0x54, 0x51, 0, 0, 0, 0x40, 0, 0, 0, 0x40],
    ];
    assert_eq!(
        watch(&[contract.concat(), trace.concat()].concat()),
        EXAMPLE
    );
    // Narrow records never try them.
    let narrow = [0x54, 0x50, 255, 255, 255, 255].repeat(2);
    assert_eq!(
        watch(&[contract.concat(), narrow].concat()),
        "1 open 0\n2 broken 1\ndecided 2\n"
    );
    let bad = with(&contract.concat(), 10, &[0x20]);
    assert_eq!(watch(&[bad, trace.concat()].concat()), "refused 4 1\n");
}

/// A contract of duty 1 a.
const DUTY: [u8; 6] = [0x54, 0x43, 1, 1, 0, 0];

#[test]
fn watch_begins_its_trace_at_whole_six_bytes() {
    let input = [DUTY.to_vec(), vec![0x54, 0x51, 1, 0, 0, 0, 1, 0, 0, 0]].concat();
    for length in 0..=16 {
        let expected = match length {
            6 => "decided 0\n",
            // Under six bytes of a record are of the contract.
            0..=11 => "refused 1 0\n",
            12..=15 => "refused 11 0\n",
            _ => "1 met 0\ndecided 1\n",
        };
        assert_eq!(watch(&input[..length]), expected, "length {length}");
    }
    assert_eq!(watch(&input[6..]), "refused 1 0\n");
    // Marks that aren't at a multiple of six begin no trace.
    for mark in [[0x54, 0x50], [0x54, 0x51]] {
        for at in 1..5 {
            let unaligned = with(&[0x54, 0x43, 99, 0, 0, 0], at, &mark);
            let expected = match at {
                1 => "refused 2 0\n",
                _ => "refused 3 0\n",
            };
            let longer = [unaligned, vec![0; 5]].concat();
            assert_eq!(watch(&longer), "refused 1 0\n");
            assert_eq!(watch(&[longer, vec![0]].concat()), expected);
        }
    }
}

#[test]
fn watch_begins_its_trace_at_the_first_of_either_mark() {
    // Party 2's attempts, and the second six bytes of the trace, start like a narrow record.
    let wide = [[0x54, 0x51, 1, 0, 0, 0, 0x54, 0x50, 0, 0], WIDE].concat();
    assert_eq!(
        watch(&[DUTY.as_slice(), &wide].concat()),
        "1 broken 2\n2 broken-after 2\ndecided 1\n"
    );
    // Only the first six bytes of the trace need to be whole: of what follows there are four.
    assert_eq!(
        watch(&[DUTY.as_slice(), &wide[..10]].concat()),
        "1 broken 2\ndecided 1\n"
    );
    // A later record of the other form begins nothing.
    let narrow = [NARROW, NARROW, [0x54, 0x51, 0, 0, 0, 0]].concat();
    assert_eq!(
        watch(&[DUTY.as_slice(), &narrow].concat()),
        "refused 11 2\n"
    );
    let mixed = [WIDE.to_vec(), NARROW.repeat(5)].concat();
    assert_eq!(watch(&[DUTY.as_slice(), &mixed].concat()), "refused 11 1\n");
    let mixed = [NARROW.to_vec(), WIDE.repeat(3)].concat();
    assert_eq!(watch(&[DUTY.as_slice(), &mixed].concat()), "refused 11 1\n");
    let mixed = [NARROW.as_slice(), &WIDE].concat();
    assert_eq!(watch(&[DUTY.as_slice(), &mixed].concat()), "refused 11 0\n");
    // Nor does a contract record after it count.
    let after = [DUTY, [0x54, 0x51, 0, 0, 0, 0], DUTY].concat();
    assert_eq!(watch(&after), "refused 11 0\n");
    let split = [record(16, 0, 0), [0x54, 0x51, 0, 0, 0, 0], DUTY].concat();
    assert_eq!(watch(&split), "refused 6 1\n");
    let near = [DUTY, [0x54, 0x52, 0, 0, 0, 0]].concat();
    assert_eq!(watch(&near), "refused 2 1\n");
}

#[test]
fn watch_tests_the_contract_before_the_trace() {
    let bad_length = [&record(11, 0, 0), &WIDE[..6]].concat();
    assert_eq!(watch(&bad_length), "refused 3 0\n");
    let bad_action = [&record(1, 1, 32), &WIDE[..6]].concat();
    assert_eq!(watch(&bad_action), "refused 4 0\n");
    let good_action = [&record(1, 1, 31), &WIDE[..6]].concat();
    assert_eq!(watch(&good_action), "refused 11 0\n");
}

#[test]
fn the_longest_wide_input_of_watch() {
    // Duty 1 a under four repeats, and 6,549 periods.
    let contract = contract(&[(1, 1, 0), (7, 0, 0), (7, 0, 0), (7, 0, 0), (7, 0, 0)]);
    let period = [0x54, 0x51, 1, 0, 0, 0, 1, 0, 0, 0];
    let mut input = [contract, period.repeat(6549)].concat();
    assert_eq!(input.len(), 65520);
    assert!(watch(&input).ends_with("\n6549 open 0\ndecided 0\n"));
    input.push(0x54);
    assert_eq!(watch(&input), "refused 13 0\n");
}
