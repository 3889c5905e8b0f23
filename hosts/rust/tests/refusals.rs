//! The table of refusals in documents 01 and 02: the small input of each, and a few more. Those of
//! join, 14 to 16, are in `joining.rs`.

use monitor::{
    calls, Action, Blame, Contract, Fault, Image, Monitor, Owner, Party, Period, Record, Refusal,
    Window,
};

const A: Action = Action::new(0).unwrap();
const DUTY: Record = Record::Duty(Owner::Party(Party::One), A);

/// An image by hand: party 1 owes action 0 in each period.
const BY_HAND: [u8; 32] = [
    0x54, 0x52, 2, 0, 1, 0, 0, 0, // row 0: party 1 tries action 0
    0x54, 0x52, 3, 0, 0, 0, 0, 0, // row 1: not row 0
    0x54, 0x52, 0, 0, 0, 0, 0, 0, // row 2: false
    0x54, 0x45, 2, 0, 1, 0, 2, 0, // S is row 2, V1 row 1, V2 row 2
];

#[track_caller]
fn hold<T: std::fmt::Debug>(got: Result<T, Refusal>, number: u32, place: u64) {
    let refusal = got.unwrap_err();
    assert_eq!((refusal.fault.number(), refusal.place), (number, place));
}

fn compile(records: &[Record]) -> Result<Image, Refusal> {
    Image::compile(Contract::from_records(records))
}

fn by_hand() -> Image {
    Image::from_bytes(BY_HAND).unwrap()
}

#[test]
fn lengths_of_contracts() {
    hold(compile(&[]), 1, 0);
    hold(Image::compile([0x54, 0x43, 1, 1, 0]), 1, 0);
    hold(Image::compile([0; 7]), 1, 0);
    hold(Image::compile(vec![0x54; 6 * 65]), 1, 0);
    hold(Image::compile(vec![0x54; 1 << 20]), 1, 0);
}

#[test]
fn records_at_fault() {
    hold(Image::compile([0x54, 0x44, 1, 1, 0, 0]), 2, 0);
    hold(Image::compile([0x54, 0x43, 11, 0, 0, 0]), 3, 0);
    hold(Image::compile([0x54, 0x43, 1, 4, 0, 0]), 4, 0);
    hold(Image::compile([0x54, 0x43, 1, 1, 32, 0]), 4, 0);
    hold(Image::compile([0x54, 0x43, 1, 1, 0, 1]), 4, 0);
    hold(Image::compile([0x54, 0x43, 10, 1, 0, 0]), 4, 0);
    hold(Image::compile([0x54, 0x43, 10, 1, 0, 16]), 4, 0);
    hold(Image::compile([0x54, 0x43, 10, 1, 0, 255]), 4, 0);
    hold(compile(&[Record::Repeat]), 5, 0);
    hold(compile(&[DUTY, Record::Any, Record::Both]), 5, 2);
    hold(
        compile(&[Record::Any, Record::Star, DUTY, Record::When]),
        7,
        3,
    );

    let mut second = Contract::from_records(&[DUTY, DUTY]).as_bytes().to_vec();
    second[8] = 24;
    hold(Image::compile(second), 3, 1);
}

/// A duty takes party 3, for both, and no other kind does; a lone expression is refused by 6.
#[test]
fn parties_of_every_kind() {
    let kinds = [
        (1, 3, 0),
        (2, 2, 0),
        (3, 2, 0),
        (10, 2, 1),
        (17, 2, 0),
        (18, 2, 0),
    ];
    for (kind, most, last) in kinds {
        for party in 0..=255 {
            let compiled = Image::compile([0x54, 0x43, kind, party, 0, last]);
            if !(1..=most).contains(&party) {
                hold(compiled, 4, 0);
            } else if kind > 16 {
                hold(compiled, 6, 1);
            } else {
                assert!(compiled.is_ok(), "kind {kind}, party {party}: {compiled:?}");
            }
        }
    }
}

/// Every kind that uses an action takes 0 to 31.
#[test]
fn actions_of_every_kind() {
    let kinds = [
        (1, 1, 0),
        (2, 1, 0),
        (3, 1, 0),
        (10, 1, 1),
        (17, 1, 0),
        (18, 1, 0),
        (19, 0, 0),
        (20, 0, 0),
    ];
    for (kind, party, last) in kinds {
        for action in 0..=255 {
            let compiled = Image::compile([0x54, 0x43, kind, party, action, last]);
            if action > 31 {
                hold(compiled, 4, 0);
            } else if kind > 16 {
                hold(compiled, 6, 1);
            } else {
                assert!(
                    compiled.is_ok(),
                    "kind {kind}, action {action}: {compiled:?}"
                );
            }
        }
    }
}

#[test]
fn not_just_one_clause() {
    hold(compile(&[Record::Any]), 6, 1);
    hold(compile(&[DUTY, DUTY]), 6, 2);
}

/// The least length of an image buffer for these records, and a byte less.
fn hold_least(records: &[Record], least: usize) {
    let contract = Contract::from_records(records);
    for (length, number) in [(least - 1, 8), (least, 0)] {
        let (mut image, mut reply) = (vec![0xee; length], [0xee; 16]);
        assert_eq!(
            calls::compile(contract.as_bytes(), &mut image, &mut reply),
            1
        );
        assert_eq!(reply[..4], [number, 0, 0, 0]);
        assert_eq!(reply[8..], [0; 8]);
        assert_eq!(image.iter().all(|&byte| byte == 0xee), number == 8);
    }
}

#[test]
fn buffers_too_short_for_an_image() {
    let deadline = |periods| Record::Deadline(Party::One, A, Window::new(periods).unwrap());
    hold_least(&[DUTY], 776);
    hold_least(&[deadline(1)], 808);
    hold_least(&[deadline(15)], 1_256);
    hold_least(
        &[deadline(3), deadline(5), Record::Both, DUTY, Record::Then],
        2_056,
    );
    let longest = [&[deadline(15); 32][..], &[Record::Both; 31]].concat();
    hold_least(&longest, 32_008);
    hold_least(&[&longest[..], &[Record::Repeat]].concat(), 32_264);
}

#[test]
fn areas_too_short_for_a_reply() {
    let contract = Contract::from_records(&[DUTY]);
    let (mut image, mut reply) = ([0xee; 776], [0xee; 15]);
    assert_eq!(
        calls::compile(contract.as_bytes(), &mut image, &mut reply),
        0
    );
    assert_eq!((image, reply), ([0xee; 776], [0xee; 15]));

    let mut reply = [0xee; 31];
    assert_eq!(calls::decide(&BY_HAND, &[], &mut reply), 0);
    assert_eq!(reply, [0xee; 31]);
}

#[test]
fn images() {
    for length in [0, 8, 15, 17, 47_632] {
        hold(Image::from_bytes(vec![0; length]), 9, 0);
    }
    let mut image = BY_HAND;
    image[2] = 3; // not row 0, which isn't a lower row
    image[4] = 0;
    hold(Image::from_bytes(image), 9, 0);
    let mut image = BY_HAND;
    image[18] = 7;
    hold(Image::from_bytes(image), 9, 2);
    let mut image = BY_HAND;
    image[26] = 3;
    hold(Image::from_bytes(image), 9, 3);
}

/// An attempt's action is a field of two bytes, 0 to 31.
#[test]
fn actions_of_rows() {
    for action in 0..=u16::MAX {
        let mut image = BY_HAND;
        image[6..8].copy_from_slice(&action.to_le_bytes());
        let image = Image::from_bytes(image);
        if action > 31 {
            hold(image, 9, 0);
        } else {
            let (bit, mut monitor) = (1 << action, Monitor::begin(&image.unwrap()));
            let reply = monitor.step(Period::from_masks(bit, 0)).unwrap();
            assert_eq!(reply.blame, None, "action {action}");
            let reply = monitor.step(Period::from_masks(!bit, 0)).unwrap();
            assert_eq!(reply.blame, Some(Blame::One), "action {action}");
        }
    }
}

#[test]
fn states() {
    let image = by_hand();
    assert_eq!(image.state_bytes(), 13);
    hold(Monitor::resume(&image, [0; 12]), 10, 0);
    hold(Monitor::resume(&image, [0; 14]), 10, 0);
    let mut state = [0; 13];
    state[0] = 3;
    hold(Monitor::resume(&image, state), 10, 0);
    let mut state = [0; 13];
    state[10] = 1; // a row value, though no period is taken
    hold(Monitor::resume(&image, state), 10, 0);

    let (mut state, mut reply) = ([0xee; 12], [0xee; 16]);
    assert_eq!(calls::begin(image.as_bytes(), &mut state, &mut reply), 1);
    assert_eq!(reply[..4], [10, 0, 0, 0]);
    assert_eq!(state, [0xee; 12]);
}

/// Records of both forms: good ones, in which both try action 0, ones in which nobody tries
/// anything, and ones of another mark.
const GOOD: [&[u8]; 2] = [
    &[0x54, 0x50, 1, 0, 1, 0],
    &[0x54, 0x51, 1, 0, 0, 0, 1, 0, 0, 0],
];
const MISSED: [&[u8]; 2] = [
    &[0x54, 0x50, 0, 0, 0, 0],
    &[0x54, 0x51, 0, 0, 0, 0, 0, 0, 0, 0],
];
const BAD: [&[u8]; 2] = [
    &[0x54, 0x43, 1, 0, 1, 0],
    &[0x54, 0x43, 1, 0, 0, 0, 1, 0, 0, 0],
];

#[test]
fn periods() {
    let image = by_hand();
    let mut monitor = Monitor::begin(&image);
    hold(monitor.step_bytes(&[]), 11, 0);
    for bytes in [&[0x54][..], &[0; 7], BAD[0], BAD[1]] {
        hold(monitor.step_bytes(bytes), 11, 0);
        hold(monitor.run_bytes(bytes), 11, 0);
    }
    for (good, bad) in GOOD.into_iter().zip(BAD) {
        hold(monitor.step_bytes(&[good, good].concat()), 11, 0);
        hold(monitor.run_bytes(&[good, good, bad, good].concat()), 11, 2);
        hold(monitor.run_bytes(&[bad, good].concat()), 11, 0);
    }
    assert_eq!(monitor, Monitor::begin(&image));

    for good in GOOD {
        monitor.step_bytes(good).unwrap();
        monitor.run_bytes(&[good, good].concat()).unwrap();
    }
    assert_eq!(monitor.periods(), 6);
}

/// All lengths up to 21 bytes, after each form's mark and after another.
#[test]
fn lengths_of_periods() {
    let image = by_hand();
    for mark in [0x50, 0x51, 0x52] {
        let record = match mark {
            0x50 => 6,
            0x51 => 10,
            // No length is one of this mark.
            _ => usize::MAX,
        };
        for length in 0..=21 {
            let mut bytes = vec![0; length];
            for at in (0..length).step_by(record) {
                let end = length.min(at + 2);
                bytes[at..end].copy_from_slice(&[0x54, mark][..end - at]);
            }
            let mut monitor = Monitor::begin(&image);
            if length == record {
                monitor.step_bytes(&bytes).unwrap();
                assert_eq!(Period::from_bytes(&bytes), Ok(Period::default()));
            } else {
                hold(monitor.step_bytes(&bytes), 11, 0);
                hold(Period::from_bytes(&bytes), 11, 0);
            }
            let mut monitor = Monitor::begin(&image);
            if length % record == 0 {
                monitor.run_bytes(&bytes).unwrap();
                assert_eq!(monitor.periods() as usize, length / record);
                // The first record decides.
                let decided = image.decide_bytes(&bytes).unwrap();
                assert_eq!(decided.records as usize, (length / record).min(1));
                assert_eq!(Period::read_trace(&bytes).unwrap().len(), length / record);
            } else {
                hold(monitor.run_bytes(&bytes), 11, 0);
                hold(image.decide_bytes(&bytes), 11, 0);
                hold(Period::read_trace(&bytes), 11, 0);
            }
        }
    }
}

/// A trace is wholly of the first record's form: its length is tested by that form, then each later
/// record.
#[test]
fn mixed_traces() {
    let image = by_hand();
    let refused = |trace: &[u8], place| {
        hold(Monitor::begin(&image).run_bytes(trace), 11, place);
        hold(image.decide_bytes(trace), 11, place);
        hold(Period::read_trace(trace), 11, place);
    };
    let [narrow, wide] = GOOD;
    refused(&[narrow, wide].concat(), 0);
    refused(&[wide, narrow].concat(), 0);
    // Five narrow records are as long as three wide ones.
    refused(&[narrow.repeat(5), wide.repeat(3)].concat(), 5);
    refused(&[wide.repeat(3), narrow.repeat(5)].concat(), 3);
    for (record, other) in [(narrow, 0x51), (wide, 0x50)] {
        for place in 1..5 {
            let mut trace = record.repeat(5);
            trace[place * record.len() + 1] = other;
            refused(&trace, place as u64);
            // The length before the later marks.
            trace.push(0x54);
            refused(&trace, 0);
        }
    }
}

#[test]
fn traces_to_decide() {
    let image = by_hand();
    hold(image.decide_bytes(&[0; 7]), 11, 0);
    for ((good, missed), bad) in GOOD.into_iter().zip(MISSED).zip(BAD) {
        hold(image.decide_bytes(&[missed, &[0x54]].concat()), 11, 0);
        hold(image.decide_bytes(&[good, bad, &[0x54]].concat()), 11, 0);
        hold(image.decide_bytes(&[good, good, bad, good].concat()), 11, 2);
        hold(image.decide_bytes(&[good, bad, missed].concat()), 11, 1);
        let decided = image.decide_bytes(&[good, missed, bad].concat()).unwrap();
        assert_eq!((decided.records, decided.blame), (2, Some(Blame::One)));
    }

    // An image of wrong length, before a trace of wrong length.
    let mut reply = [0xee; 33];
    assert_eq!(calls::decide(&BY_HAND[1..], &[0; 7], &mut reply), 1);
    assert_eq!(reply[..32], [&[9][..], &[0; 31]].concat());
    assert_eq!(reply[32], 0xee);
}

#[test]
fn full_count() {
    let image = by_hand();
    let period = Period::from_masks(1, 0);
    let mut state = [0; 13];
    state[2..6].copy_from_slice(&(u32::MAX - 1).to_le_bytes());

    let mut monitor = Monitor::resume(&image, state).unwrap();
    hold(monitor.run(&[period, period, period]), 12, 1);
    hold(monitor.run_bytes(&GOOD[0].repeat(3)), 12, 1);
    assert_eq!(monitor.state(), state);
    monitor.step(period).unwrap();
    assert_eq!(monitor.periods(), u32::MAX);
    hold(monitor.step(period), 12, 0);
    hold(monitor.step_bytes(GOOD[0]), 12, 0);
    monitor.run(&[]).unwrap();
}

#[test]
fn refusals_in_words() {
    let words = [
        "the contract is not 1 to 64 records of 6 bytes (refusal 1)",
        "record 2: wrong mark (refusal 2)",
        "record 2: unknown kind (refusal 3)",
        "record 2: a field is out of range, or unused and not 0 (refusal 4)",
        "record 2: operands are missing or of the wrong sort (refusal 5)",
        "the 2 records are not just one clause (refusal 6)",
        "record 2: the expression holds the empty list (refusal 7)",
        "the image buffer is too short (refusal 8)",
        "image row 2: bad row, end record or length (refusal 9)",
        "the state is of wrong length, or not sound (refusal 10)",
        "period record 2: wrong mark or length (refusal 11)",
        "period record 2: no more periods can be counted (refusal 12)",
        "log 1, record 2: wrong mark, or period 0 (refusal 14)",
        "log 1, record 2: its number is not above the one before it (refusal 15)",
        "the trace buffer is too short (refusal 16)",
    ];
    let faults: Vec<Fault> = (0..100).filter_map(Fault::from_number).collect();
    assert_eq!(faults.len(), words.len());
    for (fault, words) in faults.into_iter().zip(words) {
        assert_eq!(Refusal { fault, place: 2 }.to_string(), words);
    }
    for (fault, place, words) in [
        (
            Fault::BadLog,
            0,
            "a log is of wrong length, or record 0 of log 1 has a wrong mark or period 0 (refusal 14)",
        ),
        (
            Fault::BadLog,
            65_536,
            "log 2, record 0: wrong mark, or period 0 (refusal 14)",
        ),
        (
            Fault::OutOfOrder,
            65_539,
            "log 2, record 3: its number is not above the one before it (refusal 15)",
        ),
    ] {
        assert_eq!(Refusal { fault, place }.to_string(), words);
    }
    let error: Box<dyn std::error::Error> = compile(&[]).unwrap_err().into();
    assert_eq!(error.to_string(), words[0]);
}
