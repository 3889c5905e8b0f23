//! Decide: lists of periods and stored traces, read no further than the decision.

use monitor::{
    Action, Blame, Clause, Contract, Expression, Image, Monitor, Outcome, Owner, Party, Period,
    Verdict,
};

mod common;
use common::Random;
mod narrow;
use narrow::narrow;

const A: Action = Action::new(0).unwrap();
const B: Action = Action::new(1).unwrap();

/// The periods of document 01's "Watch": the third decides.
const WATCHED: [Period; 4] = [
    Period::from_masks(1, 1),
    Period::from_masks(0, 0),
    Period::from_masks(2, 0),
    Period::from_masks(1, 1),
];

/// Its contract.
fn watched() -> Image {
    let correction = Clause::duty(Party::One, B);
    image(Clause::duty(Party::One, A).repair(correction).repeat())
}

fn image(clause: Clause) -> Image {
    Image::compile(Contract::from(clause)).unwrap()
}

fn bytes(periods: &[Period]) -> Vec<u8> {
    periods
        .iter()
        .flat_map(|period| period.to_bytes())
        .collect()
}

#[test]
fn up_to_the_decision() {
    let image = watched();
    for count in 0..=WATCHED.len() {
        let decided = image.decide(&WATCHED[..count]).unwrap();
        let decision = decided.decision.map(|period| period.get());
        if count < 3 {
            assert_eq!(decided.outcome, Outcome::Undecided);
            assert_eq!((decided.blame, decision), (None, None));
            assert_eq!(decided.records as usize, count);
        } else {
            assert_eq!(decided.outcome, Outcome::Violated);
            assert_eq!((decided.blame, decision), (Some(Blame::Two), Some(3)));
            assert_eq!(decided.records, 3);
        }
    }
}

/// A wrong mark is refused up to the record that decides, and is nothing after it. With its last
/// bit changed, a mark's second byte is that of the other form.
#[test]
fn records_after_the_decision_are_not_looked_at() {
    let image = watched();
    let decided = image.decide(&WATCHED);
    for good in [bytes(&WATCHED), narrow(&WATCHED)] {
        assert_eq!(image.decide_bytes(&good), decided);
        for record in 0..WATCHED.len() {
            for byte in 0..2 {
                let mut trace = good.clone();
                trace[good.len() / WATCHED.len() * record + byte] ^= 1;
                let spoiled = image.decide_bytes(&trace);
                if record < 3 {
                    let refusal = spoiled.unwrap_err();
                    assert_eq!((refusal.fault.number(), refusal.place), (11, record as u64));
                } else {
                    assert_eq!(spoiled, decided);
                }
            }
        }
    }
}

/// Over just the records read a run leaves a fresh monitor with the same outcome, blame and
/// decision. Of a list, and of its bytes in either form, decide and run say the same.
#[test]
fn a_run_over_the_records_read_agrees() {
    let duty = || Clause::duty(Owner::Both, A);
    let closed = Expression::succeeds(B);
    let clauses = [
        duty().repeat(),
        duty().repeat().until(closed),
        duty().repair(Clause::duty(Party::Two, B)).repeat(),
        Clause::when(Expression::tries(Party::Two, B), duty()).then(duty()),
    ];
    let random = &mut Random::new(1);
    let mut seen = Vec::new();
    for image in clauses.map(image) {
        for _ in 0..500 {
            let periods: Vec<Period> = (0..random.below(8))
                .map(|_| [random.below(4), random.below(4)].map(|mask| mask as u32))
                .map(|[one, two]| Period::from_masks(one, two))
                .collect();
            let decided = image.decide(&periods).unwrap();
            for trace in [bytes(&periods), narrow(&periods)] {
                assert_eq!(image.decide_bytes(&trace), Ok(decided));
            }

            let read = &periods[..decided.records as usize];
            let mut listed = Monitor::begin(&image);
            let reply = listed.run(read).unwrap().reply;
            let verdict = match decided.outcome {
                Outcome::Undecided => Verdict::Open,
                Outcome::Satisfied => Verdict::Met,
                Outcome::Violated => Verdict::Broken,
            };
            assert_eq!(reply.verdict, verdict, "{periods:?}");
            assert_eq!(reply.blame, decided.blame, "{periods:?}");
            assert_eq!(reply.decision, decided.decision, "{periods:?}");
            for trace in [bytes(read), narrow(read)] {
                let mut stored = Monitor::begin(&image);
                stored.run_bytes(&trace).unwrap();
                assert_eq!(listed, stored);
            }

            let all = periods.len() as u32;
            let read = decided.decision.map_or(all, |period| period.get());
            assert_eq!(decided.records, read, "{periods:?}");
            seen.push((decided.outcome, decided.blame));
        }
    }
    for outcome in [Outcome::Undecided, Outcome::Satisfied] {
        assert!(seen.contains(&(outcome, None)));
    }
    for blame in [Blame::One, Blame::Two, Blame::Both] {
        assert!(seen.contains(&(Outcome::Violated, Some(blame))));
    }
}

#[test]
fn one_image_decides_in_many_threads() {
    let image = &watched();
    let records: Vec<u32> = std::thread::scope(|scope| {
        let threads: Vec<_> = (0..=WATCHED.len())
            .map(|count| scope.spawn(move || image.decide(&WATCHED[..count]).unwrap().records))
            .collect();
        threads.into_iter().map(|t| t.join().unwrap()).collect()
    });
    assert_eq!(records, [0, 1, 2, 3, 3]);
}
