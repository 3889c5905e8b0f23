//! What a host does with images and states: stores them, shares them, goes on from them.

use std::num::NonZeroU32;

use monitor::{
    Action, Blame, Clause, Contract, DecideReply, Expression, Image, LogRecord, Monitor, Owner,
    Party, Period, Record, Refusal, Reply, RunReply, Verdict, Window,
};

mod common;
use common::Random;
mod narrow;
use narrow::narrow;

const A: Action = Action::new(0).unwrap();
const B: Action = Action::new(1).unwrap();
const DUTY: Record = Record::Duty(Owner::Party(Party::One), A);
const GOOD: Period = Period::from_masks(1, 1);
const BAD: Period = Period::from_masks(0, 1);

/// A duty under so many repeats less one.
fn nest(records: usize) -> Vec<Record> {
    let mut nest = vec![Record::Repeat; records];
    nest[0] = DUTY;
    nest
}

fn compile(records: &[Record]) -> Image {
    Image::compile(Contract::from_records(records)).unwrap()
}

#[test]
fn sizes_follow_the_rows() {
    let hold = |records: &[Record], windows| {
        let image = compile(records);
        assert_eq!(image.as_bytes().len(), 8 * (image.rows() + 1));
        let most = 32 * records.len() + 64 + 4 * windows;
        assert!((1..=most).contains(&image.rows()));
        let monitor = Monitor::begin(&image);
        assert_eq!(monitor.state(), vec![0; 10 + image.rows()]);
    };
    for records in 1..=64 {
        hold(&nest(records), 0);
    }
    for periods in 1..=Window::MAX {
        let deadline = Record::Deadline(Party::One, A, Window::new(periods).unwrap());
        let mut records = vec![deadline];
        for deadlines in 1..=32 {
            hold(&records, deadlines * usize::from(periods));
            records.extend([deadline, Record::Then]);
        }
    }
}

#[test]
fn sixty_four_records_and_sixty_five() {
    let mut monitor = Monitor::begin(&compile(&nest(64)));
    let ran = monitor.run(&[GOOD; 100]).unwrap();
    assert_eq!(ran.reply.verdict, Verdict::Open);
    let reply = monitor.step(BAD).unwrap();
    assert_eq!(reply.verdict, Verdict::Broken);
    assert_eq!(reply.decision.unwrap().get(), 101);

    let refusal = Image::compile(Contract::from_records(&nest(65))).unwrap_err();
    assert_eq!((refusal.fault.number(), refusal.place), (1, 0));
}

/// A good image of so many rows, all of them false.
fn blank(rows: usize) -> Vec<u8> {
    let mut image = [0x54, 0x52, 0, 0, 0, 0, 0, 0].repeat(rows);
    image.extend([0x54, 0x45, 0, 0, 0, 0, 0, 0]);
    image
}

#[test]
fn the_most_rows() {
    let image = Image::from_bytes(blank(5_952)).unwrap();
    assert_eq!((image.rows(), image.as_bytes().len()), (5_952, 47_624));
    assert_eq!(image.state_bytes(), 5_962);
    let reply = Monitor::begin(&image).step(GOOD).unwrap();
    assert_eq!(reply.verdict, Verdict::Open);
    let refusal = Image::from_bytes(blank(5_953)).unwrap_err();
    assert_eq!((refusal.fault.number(), refusal.place), (9, 0));
}

#[test]
fn compile_takes_contracts_and_bytes_alike() {
    let contract = Contract::from_records(&[DUTY]);
    let image = Image::compile(&contract).unwrap();
    assert_eq!(Image::compile([0x54, 0x43, 1, 1, 0, 0]), Ok(image.clone()));
    assert_eq!(Image::compile(contract.as_bytes()), Ok(image));
}

#[test]
fn stored_images() {
    let image = compile(&[DUTY, Record::Repeat]);
    let stored = image.as_bytes().to_vec();
    let again = Image::from_bytes(stored).unwrap();
    assert_eq!(again, image);
    assert_eq!(again.rows(), image.rows());
    let mut monitor = Monitor::begin(&again);
    let ran = monitor.run(&[GOOD, BAD]).unwrap();
    assert_eq!(ran.reply.verdict, Verdict::Broken);
}

#[test]
fn a_resumed_monitor_goes_on_as_if_never_stored() {
    let image = compile(&[DUTY, DUTY, Record::Then, Record::Repeat]);
    let trace = [GOOD, GOOD, GOOD, BAD, GOOD];
    let mut straight = Monitor::begin(&image);
    let mut stored = straight.state().to_vec();
    for (taken, period) in (0..).zip(trace) {
        let mut resumed = Monitor::resume(&image, stored).unwrap();
        assert_eq!(resumed.look(), straight.look());
        assert_eq!(resumed.periods(), taken);
        assert_eq!(resumed.step(period), straight.step(period));
        assert_eq!(resumed, straight);
        stored = resumed.state().to_vec();
    }
    assert_eq!(straight.look().verdict, Verdict::BrokenAfter);
    assert_eq!(straight.look().decision.unwrap().get(), 4);
}

/// Whichever form each record has, the state is the same.
#[test]
fn forms_alternate_from_call_to_call() {
    let image = compile(&[DUTY, Record::Repeat]);
    let periods = [GOOD, GOOD, GOOD, BAD];
    let mut straight = Monitor::begin(&image);
    straight.run(&periods).unwrap();
    for forms in 0..16 {
        let mut stepped = Monitor::begin(&image);
        for (number, period) in periods.into_iter().enumerate() {
            let record = match forms >> number & 1 {
                0 => narrow(&[period]),
                _ => period.to_bytes().to_vec(),
            };
            stepped.step_bytes(&record).unwrap();
        }
        assert_eq!(stepped, straight);
    }
    for wide in 0..=periods.len() {
        let (first, rest) = periods.split_at(wide);
        let mut ran = Monitor::begin(&image);
        ran.run(first).unwrap();
        ran.run_bytes(&narrow(rest)).unwrap();
        assert_eq!(ran, straight);
    }
}

#[test]
fn monitors_of_one_image_are_apart() {
    let image = compile(&[DUTY, Record::Repeat]);
    let mut sheets = vec![Monitor::begin(&image); 3];
    drop(image);
    sheets[1].step(BAD).unwrap();
    sheets[2].run(&[GOOD, GOOD]).unwrap();
    let verdicts: Vec<_> = sheets.iter().map(|sheet| sheet.look().verdict).collect();
    assert_eq!(verdicts, [Verdict::Open, Verdict::Broken, Verdict::Open]);
    let taken: Vec<_> = sheets.iter().map(Monitor::periods).collect();
    assert_eq!(taken, [0, 1, 2]);
    let shared = sheets[0].image().as_bytes().as_ptr();
    assert!(sheets
        .iter()
        .all(|sheet| sheet.image().as_bytes().as_ptr() == shared));
}

#[test]
fn a_look_changes_nothing() {
    let mut monitor = Monitor::begin(&compile(&[DUTY]));
    let reply = monitor.step(GOOD).unwrap();
    let before = monitor.clone();
    assert_eq!(monitor.look(), reply);
    assert_eq!(monitor.run(&[]).unwrap().reply, reply);
    assert_eq!(monitor, before);
}

/// A look shows what a run of no records over the same state gives.
#[track_caller]
fn look(monitor: &Monitor) -> Reply {
    let look = monitor.look();
    assert_eq!(monitor.clone().run(&[]).unwrap().reply, look);
    look
}

#[test]
fn a_look_is_a_run_of_no_records() {
    let duty = Clause::duty(Party::One, A);
    let closed = Expression::succeeds(B);
    let power = Clause::power(Party::One, B);
    let clauses = [
        duty.clone(),
        duty.clone().repeat(),
        duty.clone().repair(Clause::duty(Party::Two, B)).repeat(),
        duty.clone().both(power.clone()).repeat(),
        duty.clone().repeat().until(closed),
        Clause::when(Expression::tries(Party::Two, B), power).then(duty),
    ];
    let random = &mut Random::new(1);
    let mut seen = Vec::new();
    for clause in clauses {
        let image = Image::compile(Contract::from(clause)).unwrap();
        for _ in 0..200 {
            let mut monitor = Monitor::begin(&image);
            seen.push(look(&monitor));
            for _ in 0..6 {
                let [one, two] = [random.below(4), random.below(4)].map(|mask| mask as u32);
                let reply = monitor.step(Period::from_masks(one, two)).unwrap();
                assert_eq!(look(&monitor), reply);
                seen.push(reply);
            }
        }
    }
    for number in 0..=4 {
        let verdict = Verdict::from_number(number).unwrap();
        assert!(seen.iter().any(|reply| reply.verdict == verdict));
    }
    for blame in [None, Some(Blame::One), Some(Blame::Two), Some(Blame::Both)] {
        assert!(seen.iter().any(|reply| reply.blame == blame));
    }
}

/// The same on states that were not left by steps: every outcome and blame, around the ends of
/// what the counts can hold.
#[test]
fn a_look_at_any_sound_state() {
    let image = compile(&[DUTY]);
    let counts = [1, 2, 255, 256, 65_536, u32::MAX - 1, u32::MAX];
    let mut looks = 0;
    for periods in counts {
        for decision in [0].into_iter().chain(counts) {
            for (outcome, blame) in [(0, 0), (1, 0), (2, 1), (2, 2), (2, 3)] {
                let mut state = vec![0; image.state_bytes()];
                state[0] = outcome;
                state[1] = blame;
                state[2..6].copy_from_slice(&periods.to_le_bytes());
                state[6..10].copy_from_slice(&decision.to_le_bytes());
                let sound = (outcome == 0) == (decision == 0) && decision <= periods;
                let resumed = Monitor::resume(&image, state);
                assert_eq!(resumed.is_ok(), sound);
                if let Ok(monitor) = resumed {
                    let reply = look(&monitor);
                    assert_eq!(reply.blame.map_or(0, Blame::number), u32::from(blame));
                    assert_eq!(reply.decision.map_or(0, NonZeroU32::get), decision);
                    looks += 1;
                }
            }
        }
    }
    assert_eq!(looks, 7 + 4 * (1 + 2 + 3 + 4 + 5 + 6 + 7));
}

#[test]
fn every_type_crosses_threads() {
    fn crosses<T: Send + Sync>() {}
    crosses::<Image>();
    crosses::<Monitor>();
    crosses::<(Clause, Expression, Record, Contract, Owner, Window)>();
    crosses::<(Period, LogRecord)>();
    crosses::<(Reply, RunReply, DecideReply, Refusal)>();
}

#[test]
fn images_and_monitors_cross_threads() {
    let image = compile(&[DUTY, Record::Repeat]);
    let sheets: Vec<_> = (0..4)
        .map(|periods| {
            let mut monitor = Monitor::begin(&image);
            std::thread::spawn(move || {
                monitor.run(&vec![GOOD; periods]).unwrap();
                monitor.step(BAD).unwrap().decision.unwrap().get()
            })
        })
        .collect();
    let decisions: Vec<_> = sheets.into_iter().map(|t| t.join().unwrap()).collect();
    assert_eq!(decisions, [1, 2, 3, 4]);
}
