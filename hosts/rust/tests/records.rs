//! The bytes of records, and the numbers and names of answers.

use monitor::{
    Action, Blame, Contract, Fault, Outcome, Owner, Party, Period, Record, Verdict, Window,
};

const A: Action = Action::new(0).unwrap();
const B: Action = Action::new(1).unwrap();
const LAST: Action = Action::new(31).unwrap();

#[test]
fn every_kind_has_its_number_and_fields() {
    let (one, two) = (Party::One, Party::Two);
    let window = |periods| Window::new(periods).unwrap();
    let table = [
        (Record::Duty(one.into(), A), [0x54, 0x43, 1, 1, 0, 0]),
        (Record::Duty(two.into(), LAST), [0x54, 0x43, 1, 2, 31, 0]),
        (Record::Duty(Owner::Both, B), [0x54, 0x43, 1, 3, 1, 0]),
        (Record::Ban(two, B), [0x54, 0x43, 2, 2, 1, 0]),
        (Record::Power(two, LAST), [0x54, 0x43, 3, 2, 31, 0]),
        (Record::Both, [0x54, 0x43, 4, 0, 0, 0]),
        (Record::Then, [0x54, 0x43, 5, 0, 0, 0]),
        (Record::Repair, [0x54, 0x43, 6, 0, 0, 0]),
        (Record::Repeat, [0x54, 0x43, 7, 0, 0, 0]),
        (Record::When, [0x54, 0x43, 8, 0, 0, 0]),
        (Record::Until, [0x54, 0x43, 9, 0, 0, 0]),
        (
            Record::Deadline(one, LAST, window(1)),
            [0x54, 0x43, 10, 1, 31, 1],
        ),
        (
            Record::Deadline(two, B, window(15)),
            [0x54, 0x43, 10, 2, 1, 15],
        ),
        (Record::Any, [0x54, 0x43, 16, 0, 0, 0]),
        (Record::Tries(one, B), [0x54, 0x43, 17, 1, 1, 0]),
        (Record::Idle(two, LAST), [0x54, 0x43, 18, 2, 31, 0]),
        (Record::Succeeds(B), [0x54, 0x43, 19, 0, 1, 0]),
        (Record::Fails(LAST), [0x54, 0x43, 20, 0, 31, 0]),
        (Record::Seq, [0x54, 0x43, 21, 0, 0, 0]),
        (Record::Or, [0x54, 0x43, 22, 0, 0, 0]),
        (Record::Star, [0x54, 0x43, 23, 0, 0, 0]),
    ];
    for (record, bytes) in table {
        assert_eq!(record.to_bytes(), bytes, "{record:?}");
        assert_eq!(record.kind(), bytes[2], "{record:?}");
    }
}

#[test]
fn a_contract_is_its_records_in_order() {
    let duty = Record::Duty(Party::One.into(), B);
    let contract = Contract::from_records(&[duty, Record::Repeat]);
    let bytes = [0x54, 0x43, 1, 1, 1, 0, 0x54, 0x43, 7, 0, 0, 0];
    assert_eq!(contract.as_bytes(), bytes);
    assert_eq!(contract, Contract::from_bytes(bytes));
}

#[test]
fn an_owner_is_a_party_or_both() {
    for party in [Party::One, Party::Two] {
        assert_eq!(Owner::from(party), Owner::Party(party));
        assert_eq!(Owner::from(party).number(), party.number());
    }
    assert_eq!(Owner::Both.number(), 3);
}

#[test]
fn actions_are_0_to_31() {
    for number in 0..=255 {
        let action = Action::new(number).map(Action::number);
        assert_eq!(action, (number < 32).then_some(number));
    }
}

#[test]
fn windows_are_1_to_15_periods() {
    for periods in 0..=255 {
        let window = Window::new(periods).map(Window::periods);
        assert_eq!(window, (1..=15).contains(&periods).then_some(periods));
    }
}

#[test]
fn a_period_is_two_masks() {
    let period = Period::from_masks(0x8765_4321, 0x0001_0000);
    assert_eq!(
        period.to_bytes(),
        [0x54, 0x51, 0x21, 0x43, 0x65, 0x87, 0x00, 0x00, 0x01, 0x00]
    );
    assert_eq!(period.mask(Party::One), 0x8765_4321);
    assert_eq!(period.mask(Party::Two), 0x0001_0000);
    assert_eq!(
        format!("{period:?}"),
        "Period { one: 2271560481, two: 65536 }"
    );
    assert_eq!(
        Period::default().to_bytes(),
        [0x54, 0x51, 0, 0, 0, 0, 0, 0, 0, 0]
    );
}

#[test]
fn a_period_is_built_of_attempts() {
    let mut period = Period::from_actions(&[A, LAST], &[B]);
    assert_eq!(period, Period::from_masks(0x8000_0001, 0x0000_0002));
    assert!(period.tries(Party::One, LAST) && !period.tries(Party::Two, LAST));
    assert!(!period.succeeds(A) && !period.succeeds(B));
    period.attempt(Party::Two, LAST);
    period.attempt(Party::One, A);
    assert_eq!(period, Period::from_masks(0x8000_0001, 0x8000_0002));
    assert!(period.succeeds(LAST) && !period.succeeds(A) && !period.succeeds(B));
}

#[test]
fn every_action_has_its_bit() {
    for number in 0..32 {
        let action = Action::new(number).unwrap();
        let period = Period::from_actions(&[action], &[]);
        assert_eq!(period, Period::from_masks(1 << number, 0));
        assert!(period.tries(Party::One, action));
    }
}

/// A narrow record, and the wide one with the same attempts.
const NARROW: [u8; 6] = [0x54, 0x50, 0x01, 0x80, 0x34, 0x12];
const WIDE: [u8; 10] = [0x54, 0x51, 0x01, 0x80, 0, 0, 0x34, 0x12, 0, 0];
/// One with attempts at upper actions.
const UPPER: [u8; 10] = [0x54, 0x51, 0x01, 0x80, 0x02, 0x40, 0x34, 0x12, 0x78, 0x56];

#[test]
fn records_of_both_forms_are_read() {
    let period = Period::from_masks(0x8001, 0x1234);
    assert_eq!(Period::from_bytes(NARROW), Ok(period));
    assert_eq!(Period::from_bytes(WIDE), Ok(period));
    assert_eq!(period.to_bytes(), WIDE);
    let period = Period::from_masks(0x4002_8001, 0x5678_1234);
    assert_eq!(Period::from_bytes(UPPER), Ok(period));
    assert_eq!(period.to_bytes(), UPPER);
}

#[test]
fn other_bytes_are_no_record() {
    let refused = |bytes: &[u8]| {
        let refusal = Period::from_bytes(bytes).unwrap_err();
        assert_eq!(
            (refusal.fault.number(), refusal.place),
            (11, 0),
            "{bytes:?}"
        );
    };
    for (record, mark) in [(&NARROW[..], 0x50), (&WIDE, 0x51)] {
        let longer = [record, record].concat();
        for length in (0..=longer.len()).filter(|length| *length != record.len()) {
            refused(&longer[..length]);
        }
        for byte in 0..=255 {
            let mut other = record.to_vec();
            other[0] = byte;
            assert_eq!(Period::from_bytes(&other).is_ok(), byte == 0x54);
            other[0] = 0x54;
            other[1] = byte;
            assert_eq!(Period::from_bytes(&other).is_ok(), byte == mark);
        }
    }
}

#[test]
fn traces_of_both_forms_are_read() {
    let [low, upper] = [WIDE, UPPER].map(|record| Period::from_bytes(record).unwrap());
    assert_eq!(Period::read_trace([]), Ok(vec![]));
    for count in 1..8 {
        let periods = vec![low; count];
        assert_eq!(
            Period::read_trace(NARROW.repeat(count)),
            Ok(periods.clone())
        );
        assert_eq!(Period::read_trace(WIDE.repeat(count)), Ok(periods));
    }
    let trace = [WIDE, UPPER, WIDE].concat();
    assert_eq!(Period::read_trace(trace), Ok(vec![low, upper, low]));
}

/// The first record's mark fixes the form; then comes the length, then the later marks.
#[test]
fn other_bytes_are_no_trace() {
    let refused = |bytes: &[u8], place| {
        let refusal = Period::read_trace(bytes).unwrap_err();
        let came = (refusal.fault.number(), refusal.place);
        assert_eq!(came, (11, place), "{bytes:?}");
    };
    refused(&[0x54], 0);
    refused(&[0x54, 0x43, 0, 0, 0, 0], 0);
    for record in [&NARROW[..], &WIDE] {
        let mut trace = record.repeat(4);
        for length in (1..trace.len()).filter(|length| length % record.len() != 0) {
            refused(&trace[..length], 0);
        }
        // The mark of the other form, at every place.
        for place in 0..4 {
            trace[place * record.len() + 1] ^= 1;
            refused(&trace, place as u64);
            trace[place * record.len() + 1] ^= 1;
        }
        trace[record.len()] = 0x55;
        refused(&trace, 1);
        trace.pop();
        refused(&trace, 0);
    }
    // Five narrow records are as long as three wide ones.
    refused(&[&NARROW.repeat(5)[..], &WIDE.repeat(3)].concat(), 5);
    refused(&[&WIDE.repeat(3)[..], &NARROW.repeat(5)].concat(), 3);
    refused(&[&NARROW[..], &WIDE].concat(), 0);
    refused(&[&WIDE[..], &NARROW].concat(), 0);
}

#[test]
fn verdicts_have_document_01s_numbers_and_names() {
    let names = ["open", "met", "broken", "met-after", "broken-after"];
    for (number, name) in (0..).zip(names) {
        let verdict = Verdict::from_number(number).unwrap();
        assert_eq!(verdict.number(), number);
        assert_eq!(verdict.to_string(), name);
    }
    assert_eq!(Verdict::from_number(5), None);
}

#[test]
fn outcomes_have_document_01s_numbers_and_names() {
    let names = ["undecided", "satisfied", "violated"];
    for (number, name) in (0..).zip(names) {
        let outcome = Outcome::from_number(number).unwrap();
        assert_eq!(outcome.number(), number);
        assert_eq!(outcome.to_string(), name);
    }
    assert_eq!(Outcome::from_number(3), None);
}

#[test]
fn blames_have_document_01s_numbers() {
    let names = ["party 1", "party 2", "both parties"];
    for (number, name) in (1..).zip(names) {
        let blame = Blame::from_number(number).unwrap();
        assert_eq!(blame.number(), number);
        assert_eq!(blame.to_string(), name);
    }
    assert_eq!(Blame::from_number(0), None);
    assert_eq!(Blame::from_number(4), None);
}

#[test]
fn faults_have_the_documents_numbers() {
    for number in (1..=12).chain(14..=16) {
        assert_eq!(Fault::from_number(number).unwrap().number(), number);
    }
    for number in [0, 13, 17] {
        assert_eq!(Fault::from_number(number), None);
    }
}
