//! The table of refusals: its small inputs, the places, and the order of the tests.

mod common;

use common::*;
use reference::calls::{begin, run, step};
use reference::contract::{compile, least_buffer, read};
use reference::logs::join;
use reference::{image, Refusal};

fn refusal(number: u32, place: u64) -> Refusal {
    Refusal { number, place }
}

fn refuses(bytes: &[u8], number: u32, place: u64) {
    assert_eq!(
        read(bytes).unwrap_err(),
        refusal(number, place),
        "{bytes:02x?}"
    );
}

#[test]
fn one_to_three() {
    refuses(&[0; 5], 1, 0);
    refuses(&[], 1, 0);
    refuses(&contract(&[(1, 1, 0); 65]), 1, 0);
    refuses(&[0x54, 0x44, 1, 1, 0, 0], 2, 0);
    refuses(
        &[contract(&[(1, 1, 0)]), vec![0x55, 0x43, 1, 1, 0, 0]].concat(),
        2,
        1,
    );
    for kind in [0, 11, 12, 13, 14, 15, 24, 255] {
        refuses(&contract(&[(kind, 0, 0)]), 3, 0);
    }
}

#[test]
fn fields() {
    refuses(&contract(&[(1, 4, 0)]), 4, 0);
    refuses(&contract(&[(1, 0, 0)]), 4, 0);
    refuses(&contract(&[(1, 1, 32)]), 4, 0);
    refuses(&contract(&[(1, 3, 32)]), 4, 0);
    refuses(&contract(&[(19, 1, 0)]), 4, 0);
    refuses(&contract(&[(16, 0, 1)]), 4, 0);
    refuses(&contract(&[(1, 1, 0), (7, 0, 1)]), 4, 1);
    refuses(&[0x54, 0x43, 1, 1, 0, 1], 4, 0);
    refuses(&[0x54, 0x43, 1, 3, 0, 1], 4, 0);
    assert!(read(&contract(&[(1, 2, 31)])).is_ok());
    assert!(read(&contract(&[(1, 3, 31)])).is_ok());
}

#[test]
fn parties() {
    // A duty names one party or both.
    for number in 0..=255 {
        let bytes = record(1, number, 0);
        match number {
            1 | 2 => assert_eq!(read(&bytes), Ok(duty(number.into(), 0))),
            3 => assert_eq!(read(&bytes), Ok(joint_duty(0))),
            _ => refuses(&bytes, 4, 0),
        }
    }
    // The other kinds that use a party name one; a lone expression then meets 6.
    let records = [2, 3, 17, 18].map(|kind| record(kind, 0, 0));
    for mut bytes in records.into_iter().chain([deadline_record(0, 0, 2)]) {
        for number in 0..=255 {
            bytes[3] = number;
            match number {
                1 | 2 if bytes[2] >= 16 => refuses(&bytes, 6, 1),
                1 | 2 => assert!(read(&bytes).is_ok(), "{bytes:02x?}"),
                _ => refuses(&bytes, 4, 0),
            }
        }
    }
    for kind in [4, 5, 6, 7, 8, 9, 16, 19, 20, 21, 22, 23] {
        for number in 1..=255 {
            refuses(&record(kind, number, 0), 4, 0);
        }
    }
}

#[test]
fn parties_in_later_records() {
    for (kind, number) in [(1, 0), (1, 4), (2, 3), (3, 3), (17, 3), (18, 3)] {
        let records = [(1, 3, 0), (kind, number, 0), (7, 0, 0), (99, 0, 0)];
        refuses(&contract(&records), 4, 1);
    }
    let deadlines = [deadline_record(1, 0, 15), deadline_record(3, 0, 15)];
    refuses(&deadlines.concat(), 4, 1);
    // A joint duty is a clause: no expression, and no operator takes it for one.
    refuses(&contract(&[(1, 3, 0), (1, 3, 1)]), 6, 2);
    refuses(&contract(&[(1, 3, 0), (23, 0, 0)]), 5, 1);
    refuses(&contract(&[(1, 3, 0), (1, 3, 1), (8, 0, 0)]), 5, 2);
    refuses(
        &contract(&[(16, 0, 0), (23, 0, 0), (1, 3, 0), (8, 0, 0)]),
        7,
        3,
    );
}

#[test]
fn windows() {
    for window in 1..=15 {
        let clause = read(&deadline_record(2, 31, window)).expect("a good window");
        assert_eq!(clause, deadline(2, 31, window));
    }
    for window in [0, 16, 17, 128, 255] {
        refuses(&deadline_record(1, 0, window), 4, 0);
    }
    refuses(&deadline_record(0, 0, 1), 4, 0);
    refuses(&deadline_record(3, 0, 1), 4, 0);
    refuses(&deadline_record(1, 32, 1), 4, 0);
    refuses(&[deadline_record(1, 0, 1), record(10, 1, 0)].concat(), 4, 1);
}

#[test]
fn a_last_byte_that_the_kind_does_not_use() {
    let with_party = [1, 2, 3, 17, 18].map(|kind| (kind, 1, 0));
    let with_party = with_party.into_iter().chain([(1, 3, 0)]);
    let without = [4, 5, 6, 7, 8, 9, 16, 19, 20, 21, 22, 23].map(|kind| (kind, 0, 0));
    for (kind, party, action) in with_party.chain(without) {
        let mut bytes = record(kind, party, action);
        assert_ne!(read(&bytes).err().map(|refusal| refusal.number), Some(4));
        for last in [1, 15, 16, 255] {
            bytes[5] = last;
            refuses(&bytes, 4, 0);
        }
    }
}

#[test]
fn operands() {
    refuses(&contract(&[(7, 0, 0)]), 5, 0);
    refuses(&contract(&[(1, 1, 0), (4, 0, 0)]), 5, 1);
    refuses(&contract(&[(16, 0, 0), (7, 0, 0)]), 5, 1);
    refuses(&contract(&[(1, 1, 0), (16, 0, 0), (8, 0, 0)]), 5, 2);
    refuses(&contract(&[(16, 0, 0), (1, 1, 0), (9, 0, 0)]), 5, 2);
    refuses(&contract(&[(1, 1, 0), (23, 0, 0)]), 5, 1);
    refuses(&contract(&[(16, 0, 0)]), 6, 1);
    refuses(&contract(&[(1, 1, 0), (1, 1, 0)]), 6, 2);
    refuses(&contract(&[(16, 0, 0), (1, 1, 0)]), 6, 2);
    refuses(
        &contract(&[(16, 0, 0), (23, 0, 0), (1, 1, 0), (8, 0, 0)]),
        7,
        3,
    );
    refuses(
        &contract(&[(1, 1, 0), (16, 0, 0), (23, 0, 0), (9, 0, 0)]),
        7,
        3,
    );
}

#[test]
fn order_within_a_contract() {
    // Record by record: 5 at record 0 goes before 2 at record 1.
    refuses(
        &[contract(&[(7, 0, 0)]), vec![0, 0, 0, 0, 0, 0]].concat(),
        5,
        0,
    );
    // 7 at record 3 goes before 3 at record 4, and before 6.
    let empty = [(16, 0, 0), (23, 0, 0), (1, 1, 0), (8, 0, 0), (11, 0, 0)];
    refuses(&contract(&empty), 7, 3);
    refuses(
        &contract(&[(1, 1, 0), (16, 0, 0), (23, 0, 0), (1, 1, 0), (8, 0, 0)]),
        7,
        4,
    );
    // 4 goes before 5 in one record.
    refuses(&contract(&[(7, 1, 0)]), 4, 0);
    refuses(&[0x54, 0x44, 11, 3, 32, 1], 2, 0);
    refuses(&[0x54, 0x43, 11, 3, 32, 1], 3, 0);
    // A bad window goes before 5 at the next record, and a good one makes a clause.
    let repeat_any = contract(&[(16, 0, 0), (7, 0, 0)]);
    refuses(
        &[deadline_record(1, 0, 16).as_slice(), &repeat_any].concat(),
        4,
        0,
    );
    refuses(
        &[deadline_record(1, 0, 15).as_slice(), &repeat_any].concat(),
        5,
        2,
    );
    refuses(
        &[deadline_record(1, 0, 15), record(23, 0, 0)].concat(),
        5,
        1,
    );
    refuses(&[deadline_record(1, 0, 15); 2].concat(), 6, 2);
}

#[test]
fn buffers() {
    let one = contract(&[(1, 1, 0)]);
    takes_from(&one, 776);
    takes_from(&contract(&[(1, 3, 0)]), 776);
    assert_eq!(
        compile(&contract(&[(7, 0, 0)]), 0).unwrap_err(),
        refusal(5, 0)
    );
    let most = contract(&[[(1, 1, 0)].as_slice(), &[(7, 0, 0); 63]].concat());
    takes_from(&most, 16904);
    refuses(&[most, contract(&[(7, 0, 0)])].concat(), 1, 0);
}

/// The contract is taken with a buffer of that length, and refused with one byte less.
fn takes_from(contract: &[u8], length: usize) {
    assert_eq!(least_buffer(contract), length);
    assert!(compile(contract, length).is_ok());
    assert_eq!(compile(contract, length - 1).unwrap_err(), refusal(8, 0));
}

#[test]
fn buffers_of_contracts_with_deadlines() {
    takes_from(&deadline_record(1, 0, 1), 808);
    takes_from(&deadline_record(1, 0, 15), 1256);
    let halves = [deadline_record(1, 0, 15), deadline_record(2, 1, 1)].concat();
    takes_from(&[halves.as_slice(), &record(4, 0, 0)].concat(), 1800);
    let mixed = contract(&[(1, 1, 0), (4, 0, 0), (7, 0, 0)]);
    takes_from(
        &[deadline_record(1, 0, 3).as_slice(), &mixed].concat(),
        1640,
    );
    assert_eq!(compile(&halves, 0).unwrap_err(), refusal(6, 2));

    // As many deadlines as 64 records can have.
    let mut most = deadline_record(1, 0, 15).to_vec();
    for _ in 1..32 {
        most.extend(deadline_record(2, 1, 15));
        most.extend(record(4, 0, 0));
    }
    most.extend(record(7, 0, 0));
    assert_eq!(most.len(), 64 * 6);
    takes_from(&most, 32264);
}

fn image_refused(bytes: &[u8], place: u64) {
    assert_eq!(
        image::read(bytes).unwrap_err(),
        refusal(9, place),
        "{bytes:02x?}"
    );
}

#[test]
fn images() {
    for length in [0, 8, 15, 17, 47623, 47625, 47632] {
        image_refused(&vec![0; length], 0);
    }
    image_refused(&[row(3, 0, 0), end(0, 0, 0)].concat(), 0);
    image_refused(&[row(0, 0, 0), row(3, 1, 0), end(0, 0, 0)].concat(), 1);
    image_refused(&[row(0, 0, 0), row(4, 0, 1), end(0, 0, 0)].concat(), 1);
    image_refused(&[row(0, 0, 1), end(0, 0, 0)].concat(), 0);
    image_refused(&[row(1, 1, 0), end(0, 0, 0)].concat(), 0);
    image_refused(&[row(2, 0, 0), end(0, 0, 0)].concat(), 0);
    image_refused(&[row(2, 3, 0), end(0, 0, 0)].concat(), 0);
    image_refused(&[row(2, 1, 32), end(0, 0, 0)].concat(), 0);
    image_refused(&[row(6, 1, 0), end(0, 0, 0)].concat(), 0);
    image_refused(&[row(6, 0, 1), end(0, 0, 0)].concat(), 0);
    image_refused(&[row(7, 0, 0), end(0, 0, 0)].concat(), 0);
    image_refused(&[row(0, 0, 0), end(1, 0, 0)].concat(), 1);
    image_refused(&[row(0, 0, 0), end(0, 1, 0)].concat(), 1);
    image_refused(&[row(0, 0, 0), end(0, 0, 1)].concat(), 1);
    image_refused(&[row(0, 0, 0), row(0, 0, 0)].concat(), 1);
    assert!(image::read(&[row(6, 1, 0), row(1, 0, 0), end(1, 0, 0)].concat()).is_ok());
    for rows in [2112, 2113, 5952] {
        assert!(image::read(&of_rows(rows)).is_ok());
    }
    image_refused(&of_rows(5953), 0);
}

/// An image of so many false rows, whose end names the last.
fn of_rows(rows: u16) -> Vec<u8> {
    [row(0, 0, 0).repeat(rows.into()), end(0, 0, rows - 1)].concat()
}

/// Number and place of a reply.
fn answer(reply: &[u8]) -> (u32, u64) {
    let number = u32::from_le_bytes(reply[0..4].try_into().unwrap());
    (number, u64::from_le_bytes(reply[8..16].try_into().unwrap()))
}

/// Verdict, blame and decision period of a reply.
fn verdict(reply: &[u8]) -> (u8, u8, u8) {
    (reply[4], reply[16], reply[20])
}

const GOOD: [u8; 6] = [0x54, 0x50, 1, 0, 0, 0];

#[test]
fn states() {
    let image = duty_image();
    let mut reply = [7; 24];
    let mut short = [7; 15];
    let mut state = [9; 16];
    assert_eq!(begin(&image, &mut short, &mut reply), 1);
    assert_eq!((answer(&reply), short), ((10, 0), [7; 15]));
    assert_eq!(begin(&image, &mut state, &mut reply[..15]), 0);
    assert_eq!(state, [9; 16]);
    assert_eq!(begin(&image, &mut state, &mut reply), 1);
    assert_eq!(
        (state, &reply[..16], &reply[16..]),
        ([0; 16], [0; 16].as_slice(), [7; 8].as_slice())
    );
    let unsound: [(&[u8], &str); 8] = [
        (&[3, 0, 1, 0, 0, 0, 1], "outcome 3"),
        (&[2, 0, 1, 0, 0, 0, 1], "blame 0 for outcome 2"),
        (&[2, 4, 1, 0, 0, 0, 1], "blame 4"),
        (&[1, 1, 1, 0, 0, 0, 1], "blame for outcome 1"),
        (&[1, 0, 1, 0, 0, 0, 0], "decision 0 for outcome 1"),
        (&[0, 0, 1, 0, 0, 0, 1], "a decision for outcome 0"),
        (&[1, 0, 1, 0, 0, 0, 2], "decision above periods taken"),
        (
            &[0, 0, 0, 0, 0, 0, 0, 0, 0, 0, 1],
            "a value before the first period",
        ),
    ];
    for (bytes, what) in unsound {
        let mut state = [0; 16];
        state[..bytes.len()].copy_from_slice(bytes);
        let before = state;
        assert_eq!(step(&image, &mut state, &GOOD[..5], &mut reply), 1);
        assert_eq!((answer(&reply), state), ((10, 0), before), "{what}");
    }
}

#[test]
fn states_of_the_longest_image() {
    let image = of_rows(5952);
    assert_eq!(image.len(), 47624);
    let mut reply = [7; 24];
    for length in [2122, 5961, 5963] {
        assert_eq!(begin(&image, &mut vec![9; length], &mut reply), 1);
        assert_eq!(answer(&reply), (10, 0));
    }
    let mut state = vec![9; 5962];
    assert_eq!(begin(&image, &mut state, &mut reply), 1);
    assert_eq!(answer(&reply), (0, 0));
    assert_eq!(step(&image, &mut state, &GOOD, &mut reply), 1);
    assert_eq!((answer(&reply), verdict(&reply)), ((0, 0), (0, 0, 0)));
}

#[test]
fn periods_and_counts() {
    let image = duty_image();
    let mut reply = [7; 24];
    let mut state = [0; 16];
    for period in [
        vec![],
        GOOD[..5].to_vec(),
        [GOOD.as_slice(), &[0]].concat(),
        vec![0; 6],
    ] {
        assert_eq!(step(&image, &mut state, &period, &mut reply), 1);
        assert_eq!((answer(&reply), state), ((11, 0), [0; 16]));
    }
    let bad = [GOOD.as_slice(), &GOOD, &[0x54, 0x51, 0, 0, 0, 0]].concat();
    run(&image, &mut state, &bad, &mut reply);
    assert_eq!((answer(&reply), state), ((11, 2), [0; 16]));
    run(&image, &mut state, &bad[..17], &mut reply);
    assert_eq!((answer(&reply), state), ((11, 0), [0; 16]));

    let mut full = [0; 16];
    full[2..6].fill(255);
    step(&image, &mut full, &GOOD, &mut reply);
    assert_eq!(answer(&reply), (12, 0));
    run(&image, &mut full, &[], &mut reply);
    assert_eq!((answer(&reply), verdict(&reply)), ((0, 0), (0, 0, 0)));
    full[2] = 254;
    let before = full;
    run(&image, &mut full, &GOOD.repeat(3), &mut reply);
    assert_eq!((answer(&reply), full), ((12, 1), before));
    run(&image, &mut full, &bad, &mut reply);
    assert_eq!((answer(&reply), full), ((11, 2), before));
    step(&image, &mut full, &GOOD, &mut reply);
    assert_eq!((answer(&reply), verdict(&reply)), ((0, 0), (2, 2, 255)));
}

#[test]
fn steps_and_runs() {
    let image = duty_image();
    let mut reply = [7; 24];
    let mut state = [0; 16];
    assert_eq!(step(&image, &mut state, &GOOD, &mut reply[..23]), 0);
    assert_eq!((state, reply), ([0; 16], [7; 24]));
    assert_eq!(step(&image, &mut state, &GOOD, &mut reply), 1);
    assert_eq!((answer(&reply), verdict(&reply)), ((0, 0), (2, 2, 1)));
    assert_eq!(state, [2, 2, 1, 0, 0, 0, 1, 0, 0, 0, 1, 0, 0, 0, 1, 1]);
    assert_eq!(
        step(&image, &mut state, &[0x54, 0x50, 0, 0, 1, 0], &mut reply),
        1
    );
    assert_eq!(verdict(&reply), (4, 2, 1));
    assert_eq!(state, [2, 2, 2, 0, 0, 0, 1, 0, 0, 0, 1, 0, 0, 0, 1, 1]);
    let mut other = [0; 16];
    run(&image, &mut other, &[GOOD, GOOD].concat(), &mut reply);
    assert_eq!((state, verdict(&reply)), (other, (4, 2, 1)));
    run(&image, &mut other, &[], &mut reply);
    assert_eq!((state, verdict(&reply)), (other, (4, 2, 1)));
}

#[test]
fn logs() {
    let first = [0x54, 0x4c, 1, 0, 0, 0, 0, 0];
    let twice = [first, first].concat();
    let (mut trace, mut reply) = ([7; 9], [7; 16]);
    for (log, number, place) in [
        (&first[..7], 14, 0),
        (&[0x54, 0x50, 1, 0, 0, 0, 0, 0], 14, 0),
        (&[0x54, 0x4c, 0, 0, 0, 0, 0, 0], 14, 0),
        (&twice, 15, 1),
        (&first, 16, 0),
    ] {
        assert_eq!(join(log, &[], &mut trace, &mut reply), 1);
        assert_eq!((answer(&reply), trace), ((number, place), [7; 9]));
    }
}
