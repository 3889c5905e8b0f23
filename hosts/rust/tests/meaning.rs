//! Document 01's worked examples, joint duties, deadlines and endings, as trees, most of them also as
//! records, through compile, begin, step, run and decide.

use std::num::NonZeroU32;

use monitor::{
    Action, Blame, Clause, Contract, Expression, Image, Monitor, Outcome, Owner, Party, Period,
    Record, Reply, Verdict, Window,
};
use Party::{One, Two};
use Record::*;

mod common;
use common::Random;
mod narrow;
use narrow::narrow;

const A: Action = Action::new(0).unwrap();
const B: Action = Action::new(1).unwrap();
const C: Action = Action::new(2).unwrap();
const THREE: Window = Window::new(3).unwrap();

/// Periods in document 01's writing: party 1 before the slash, "-" for no attempt.
fn periods(text: &str) -> Vec<Period> {
    text.split(", ")
        .filter(|period| !period.is_empty())
        .map(|period| {
            let (one, two) = period.split_once('/').unwrap();
            Period::from_actions(&actions(one), &actions(two))
        })
        .collect()
}

fn actions(text: &str) -> Vec<Action> {
    text.chars()
        .filter(|&letter| letter != '-')
        .map(|letter| Action::new(letter as u8 - b'a').unwrap())
        .collect()
}

fn reply(verdict: Verdict, blame: Option<Blame>, decision: u32) -> Reply {
    Reply {
        verdict,
        blame,
        decision: NonZeroU32::new(decision),
    }
}

fn open() -> Reply {
    reply(Verdict::Open, None, 0)
}

fn met(decision: u32) -> Reply {
    reply(Verdict::Met, None, decision)
}

fn broken(decision: u32, blame: Blame) -> Reply {
    reply(Verdict::Broken, Some(blame), decision)
}

/// The image of a contract that is given twice: the tree spells these very records.
#[track_caller]
fn image(tree: Clause, records: &[Record]) -> Image {
    assert!(tree.records().eq(records.iter().copied()), "{tree:?}");
    assert_eq!(Contract::from(&tree), Contract::from_records(records));
    compiled(tree)
}

fn compiled(tree: Clause) -> Image {
    Image::compile(Contract::from(tree)).unwrap()
}

/// Holds the last of the steps over a trace of lower actions, the run of it and what decides it, both
/// in either form, to the reply.
#[track_caller]
fn hold(image: &Image, trace: &str, want: Reply) {
    let periods = periods(trace);

    let mut stepped = Monitor::begin(image);
    let mut last = stepped.look();
    for &period in &periods {
        last = stepped.step(period).unwrap();
    }
    assert_eq!(last, want, "steps over {trace:?}");
    assert_eq!(stepped.periods() as usize, periods.len());

    let mut run = Monitor::begin(image);
    assert_eq!(run.run(&periods).unwrap().reply, want, "run over {trace:?}");
    assert_eq!(run, stepped);

    let mut narrow_run = Monitor::begin(image);
    narrow_run.run_bytes(&narrow(&periods)).unwrap();
    assert_eq!(narrow_run, stepped, "run over {trace:?}, narrow");

    let decided = image.decide(&periods).unwrap();
    let outcome = match want.verdict {
        Verdict::Open => Outcome::Undecided,
        Verdict::Met | Verdict::MetAfter => Outcome::Satisfied,
        Verdict::Broken | Verdict::BrokenAfter => Outcome::Violated,
    };
    assert_eq!(decided.outcome, outcome, "decide over {trace:?}");
    assert_eq!(
        (decided.blame, decided.decision),
        (want.blame, want.decision)
    );
    let read = want
        .decision
        .map_or(periods.len(), |period| period.get() as usize);
    assert_eq!(decided.records as usize, read, "decide over {trace:?}");
    let narrow_decided = image.decide_bytes(&narrow(&periods));
    assert_eq!(narrow_decided, Ok(decided), "decide over {trace:?}, narrow");
}

/// Holds two clauses to the same replies on random traces of two actions: the last replies.
#[track_caller]
fn alike(clauses: &[Clause; 2], random: &mut Random) -> Vec<Reply> {
    let images = clauses.clone().map(compiled);
    let mut last = Vec::new();
    for _ in 0..100 {
        let mut monitors = images.each_ref().map(Monitor::begin);
        for _ in 0..60 {
            let [one, two] = [random.below(4), random.below(4)].map(|mask| mask as u32);
            let period = Period::from_masks(one, two);
            let [reply, want] = monitors.each_mut().map(|m| m.step(period).unwrap());
            assert_eq!(reply, want, "{clauses:?}");
        }
        last.push(monitors[0].look());
    }
    last
}

#[test]
fn duty() {
    let image = image(Clause::duty(One, A), &[Duty(One.into(), A)]);
    hold(&image, "", open());
    hold(&image, "a/a", met(1));
    hold(&image, "-/a", broken(1, Blame::One));
    hold(&image, "-/-", broken(1, Blame::One));
    hold(&image, "a/-", broken(1, Blame::Two));
}

/// The blame is on each party that doesn't try.
#[test]
fn joint_duty() {
    let image = image(Clause::duty(Owner::Both, A), &[Duty(Owner::Both, A)]);
    hold(&image, "", open());
    hold(&image, "a/a", met(1));
    hold(&image, "-/a", broken(1, Blame::One));
    hold(&image, "a/-", broken(1, Blame::Two));
    hold(&image, "-/-", broken(1, Blame::Both));
}

/// Its blame is united with the other half's of the same period, and not with that of a later one.
#[test]
fn a_joint_duty_in_a_both() {
    let other = Clause::duty(Two, B).repeat();
    let image = image(
        Clause::duty(Owner::Both, A).repeat().both(other),
        &[
            Duty(Owner::Both, A),
            Repeat,
            Duty(Two.into(), B),
            Repeat,
            Both,
        ],
    );
    hold(&image, "ab/ab", open());
    hold(&image, "ab/ab, -/a", broken(2, Blame::Both));
    hold(&image, "ab/ab, a/-", broken(2, Blame::Two));
    hold(&image, "ab/ab, b/b", broken(2, Blame::Both));
    let want = reply(Verdict::BrokenAfter, Some(Blame::One), 2);
    hold(&image, "ab/ab, b/ab, -/-", want);
}

/// The repair's blame alone counts, whichever of the two is the joint duty.
#[test]
fn joint_duties_and_repairs() {
    let repaired = image(
        Clause::duty(Owner::Both, A).repair(Clause::duty(One, B)),
        &[Duty(Owner::Both, A), Duty(One.into(), B), Repair],
    );
    hold(&repaired, "-/-, b/b", met(2));
    hold(&repaired, "-/-, b/-", broken(2, Blame::Two));
    let repair = image(
        Clause::duty(Two, A).repair(Clause::duty(Owner::Both, B)),
        &[Duty(Two.into(), A), Duty(Owner::Both, B), Repair],
    );
    hold(&repair, "-/-, -/b", broken(2, Blame::One));
    hold(&repair, "-/-, -/-", broken(2, Blame::Both));
}

/// A violation in the period of the acceptance counts.
#[test]
fn a_joint_duty_until() {
    let notice = Expression::tries(Two, B);
    let image = image(
        Clause::duty(Owner::Both, A).repeat().until(notice),
        &[Duty(Owner::Both, A), Repeat, Tries(Two, B), Until],
    );
    hold(&image, "a/a, a/ab", met(2));
    hold(&image, "a/a, a/b", broken(2, Blame::Two));
    hold(&image, "a/a, -/b", broken(2, Blame::Both));
}

/// A joint duty means the duties of both parties at once, under every operator.
#[test]
fn a_joint_duty_is_both_parties_duties() {
    let random = &mut Random::new(1);
    let duties = [
        Clause::duty(Owner::Both, B),
        Clause::duty(One, B).both(Clause::duty(Two, B)),
    ];
    let close = || Expression::succeeds(A);
    let clauses: [&dyn Fn(Clause) -> Clause; 5] = [
        &|duty| duty.both(Clause::power(One, A)),
        &|duty| duty.then(Clause::ban(Two, A)),
        &|duty| duty.clone().repair(duty),
        &|duty| Clause::when(Expression::tries(One, A), duty),
        &|duty| duty.repeat().until(close()),
    ];
    for clause in clauses {
        let replies = alike(&duties.clone().map(|duty| clause(duty).repeat()), random);
        for blame in [Blame::One, Blame::Two, Blame::Both] {
            assert!(replies.iter().any(|reply| reply.blame == Some(blame)));
        }
    }
}

#[test]
fn power() {
    let image = image(Clause::power(One, A), &[Power(One, A)]);
    hold(&image, "a/-", broken(1, Blame::Two));
    hold(&image, "-/a", met(1));
}

#[test]
fn ban() {
    let image = image(Clause::ban(One, A), &[Ban(One, A)]);
    hold(&image, "a/a", broken(1, Blame::One));
}

#[test]
fn both_unites_blames_of_one_period() {
    let image = image(
        Clause::both(Clause::power(One, A), Clause::duty(One, B)),
        &[Power(One, A), Duty(One.into(), B), Both],
    );
    hold(&image, "a/-", broken(1, Blame::Both));
}

#[test]
fn a_later_breach_adds_no_party() {
    let later = Clause::then(Clause::power(One, B), Clause::duty(Two, B));
    let image = image(
        Clause::both(Clause::duty(One, A), later),
        &[
            Duty(One.into(), A),
            Power(One, B),
            Duty(Two.into(), B),
            Then,
            Both,
        ],
    );
    let want = reply(Verdict::BrokenAfter, Some(Blame::One), 1);
    hold(&image, "-/a, -/-", want);
}

#[test]
fn repair() {
    let image = image(
        Clause::repair(Clause::duty(One, A), Clause::duty(One, B)),
        &[Duty(One.into(), A), Duty(One.into(), B), Repair],
    );
    hold(&image, "-/-, b/b", met(2));
}

#[test]
fn repeat() {
    let image = image(
        Clause::repeat(Clause::duty(One, A)),
        &[Duty(One.into(), A), Repeat],
    );
    hold(&image, "a/a", open());
}

#[test]
fn when() {
    let image = image(
        Clause::when(Expression::tries(One, B), Clause::duty(Two, A)),
        &[Tries(One, B), Duty(Two.into(), A), When],
    );
    hold(&image, "-/-", met(1));
}

/// As document 01 writes it, and without the star.
#[test]
fn until() {
    let starred = image(
        Clause::until(
            Clause::repeat(Clause::duty(One, A)),
            Expression::seq(
                Expression::star(Expression::any()),
                Expression::tries(One, B),
            ),
        ),
        &[
            Duty(One.into(), A),
            Repeat,
            Any,
            Star,
            Tries(One, B),
            Seq,
            Until,
        ],
    );
    for image in [starred, until_b()] {
        hold(&image, "a/a", open());
        hold(&image, "a/a, ab/a", met(2));
        hold(&image, "a/a, b/a", broken(2, Blame::One));
    }
}

fn until_b() -> Image {
    image(
        each().until(Expression::tries(One, B)),
        &[Duty(One.into(), A), Repeat, Tries(One, B), Until],
    )
}

/// Open as long as both parties try a.
fn each() -> Clause {
    Clause::duty(One, A).repeat()
}

/// Party 1 tries b in two periods, one after the other.
fn twice() -> Expression {
    Expression::tries(One, B).seq(Expression::tries(One, B))
}

#[test]
fn an_ending_that_begins_in_period_2() {
    let ending = Expression::tries(One, B).seq(Expression::tries(One, C));
    let image = image(
        each().until(ending),
        &[
            Duty(One.into(), A),
            Repeat,
            Tries(One, B),
            Tries(One, C),
            Seq,
            Until,
        ],
    );
    hold(&image, "a/a, ab/a", open());
    hold(&image, "a/a, ab/a, ac/a", met(3));
    // A stretch leaves out no period between its first and its last.
    hold(&image, "a/a, ab/a, a/a, ac/a", open());
    hold(&image, "a/a, ac/a, ab/a", open());
}

#[test]
fn endings_that_overlap() {
    let ending = twice().seq(Expression::tries(One, C));
    let image = compiled(each().until(ending));
    // The stretch from period 1 fails in period 3, the one from period 2 goes on.
    hold(&image, "ab/a, ab/a, ab/a", open());
    hold(&image, "ab/a, ab/a, ab/a, ac/a", met(4));
    hold(&image, "ab/a, ab/a, a/a, ac/a", open());
}

#[test]
fn an_ending_that_begins_later_and_ends_before_the_first() {
    let any = Expression::any;
    let long = Expression::tries(One, B).seq(any().seq(any()).seq(Expression::tries(One, B)));
    let short = Expression::tries(One, C).seq(Expression::tries(One, C));
    let image = compiled(each().until(long.or(short)));
    hold(&image, "ab/a, ac/a", open());
    hold(&image, "ab/a, ac/a, ac/a", met(3));
    // The later one fails, and the first goes on.
    hold(&image, "ab/a, ac/a, a/a", open());
    hold(&image, "ab/a, ac/a, a/a, ab/a", met(4));
}

/// A violation in the period of the acceptance counts, also where the stretch began later.
#[test]
fn an_ending_and_a_violation_in_one_period() {
    let image = compiled(Clause::duty(Owner::Both, A).repeat().until(twice()));
    hold(&image, "a/a, ab/a, ab/a", met(3));
    hold(&image, "a/a, ab/a, ab/-", broken(3, Blame::Two));
    hold(&image, "a/a, ab/a, b/a", broken(3, Blame::One));
    hold(&image, "a/a, ab/a, b/-", broken(3, Blame::Both));
    let met_after = reply(Verdict::MetAfter, None, 3);
    hold(&image, "a/a, ab/a, ab/a, -/-", met_after);
}

/// Where a repeat begins the `until` anew, a stretch of the last round doesn't count.
#[test]
fn a_repeated_until() {
    let two = Window::new(2).unwrap();
    // The last round ends in period 1: by the expression, then by the clause.
    let ending = Expression::tries(One, C).or(twice());
    let image = compiled(Clause::deadline(One, A, two).until(ending).repeat());
    hold(&image, "bc/-, b/-", open());
    hold(&image, "bc/-, b/-, -/-", broken(3, Blame::One));
    let image = compiled(Clause::deadline(One, A, two).until(twice()).repeat());
    hold(&image, "ab/a, b/-", open());
    hold(&image, "ab/a, b/-, -/-", broken(3, Blame::One));

    // Periods 3 and 4 end the second round, so that the third has periods 5 to 8.
    let four = Window::new(4).unwrap();
    let image = compiled(Clause::deadline(One, A, four).until(twice()).repeat());
    hold(&image, "ab/a, -/-, b/-, b/-, -/-, -/-, -/-", open());
    let last = "ab/a, -/-, b/-, b/-, -/-, -/-, -/-, -/-";
    hold(&image, last, broken(8, Blame::One));
}

/// What was tried before the `until` began doesn't count.
#[test]
fn an_until_that_begins_later() {
    let ended = || each().until(twice());
    let begun = [
        ("ab/a", Clause::duty(One, A).then(ended())),
        ("b/a", Clause::duty(One, A).repair(ended())),
        ("ab/a", Clause::when(Expression::tries(One, B), ended())),
    ];
    for (first, clause) in begun {
        let image = compiled(clause);
        hold(&image, &format!("{first}, ab/a"), open());
        hold(&image, &format!("{first}, ab/a, ab/a"), met(3));
        hold(&image, &format!("{first}, a/a, ab/a"), open());
        hold(&image, &format!("{first}, a/a, ab/a, ab/a"), met(4));
    }
}

#[test]
fn the_expression_of_an_until_is_never_rejected() {
    let image = compiled(each().until(twice()));
    let quiet = ["a/a"; 40].join(", ");
    hold(&image, &quiet, open());
    hold(&image, &format!("{quiet}, ab/a, ab/a"), met(42));
    let failed = ["ab/a, a/a"; 20].join(", ");
    hold(&image, &failed, open());
    hold(&image, &format!("{failed}, ab/a, ab/a"), met(42));
}

#[test]
fn the_expression_of_a_when_matches_from_its_first_period() {
    let image = compiled(Clause::when(twice(), Clause::duty(One, A)));
    hold(&image, "-/-", met(1));
    let want = reply(Verdict::MetAfter, None, 1);
    hold(&image, "-/-, b/-, b/-, -/-", want);
    hold(&image, "b/-, -/-", met(2));
    hold(&image, "b/-, b/-, -/-", broken(3, Blame::One));
}

/// Any number of periods before an ending change nothing.
#[test]
fn a_star_before_an_ending() {
    let random = &mut Random::new(1);
    let [one, two] = [One, Two].map(|party| move || Expression::tries(party, B));
    let endings = [
        one(),
        one().seq(two()),
        one().seq(two().star()).seq(Expression::fails(A)),
        one().seq(one()).or(two().seq(Expression::any()).seq(two())),
    ];
    let clauses: [&dyn Fn(Expression) -> Clause; 4] = [
        &|ending| Clause::power(One, A).repeat().until(ending),
        &|ending| Clause::deadline(Two, A, THREE).until(ending).repeat(),
        &|ending| Clause::ban(One, A).then(each().until(ending)).repeat(),
        &|ending| {
            let inner = Clause::deadline(One, A, THREE).until(ending.clone());
            inner.repeat().until(ending.seq(Expression::idle(One, A)))
        },
    ];
    for clause in clauses {
        for ending in &endings {
            let starred = Expression::any().star().seq(ending.clone());
            let replies = alike(&[clause(ending.clone()), clause(starred)], random);
            let ended = replies
                .iter()
                .filter(|reply| reply.verdict != Verdict::Open);
            assert!(ended.count() > 10, "{ending:?}");
        }
    }
}

/// The image of until (repeat (duty 1 a), tries 1 b) that was compiled when the expression of an
/// `until` matched from its first period alone.
const EARLIER: [[u8; 8]; 27] = [
    [0x54, 0x52, 0, 0, 0, 0, 0, 0],
    [0x54, 0x52, 1, 0, 0, 0, 0, 0],
    [0x54, 0x52, 3, 0, 1, 0, 0, 0],
    [0x54, 0x52, 6, 0, 25, 0, 0, 0],
    [0x54, 0x52, 3, 0, 3, 0, 0, 0],
    [0x54, 0x52, 4, 0, 2, 0, 4, 0],
    [0x54, 0x52, 2, 0, 1, 0, 1, 0],
    [0x54, 0x52, 4, 0, 1, 0, 6, 0],
    [0x54, 0x52, 6, 0, 16, 0, 0, 0],
    [0x54, 0x52, 4, 0, 5, 0, 8, 0],
    [0x54, 0x52, 3, 0, 8, 0, 0, 0],
    [0x54, 0x52, 4, 0, 5, 0, 10, 0],
    [0x54, 0x52, 5, 0, 1, 0, 9, 0],
    [0x54, 0x52, 2, 0, 1, 0, 0, 0],
    [0x54, 0x52, 2, 0, 2, 0, 0, 0],
    [0x54, 0x52, 4, 0, 12, 0, 13, 0],
    [0x54, 0x52, 4, 0, 15, 0, 14, 0],
    [0x54, 0x52, 3, 0, 13, 0, 0, 0],
    [0x54, 0x52, 4, 0, 12, 0, 17, 0],
    [0x54, 0x52, 3, 0, 14, 0, 0, 0],
    [0x54, 0x52, 4, 0, 15, 0, 19, 0],
    [0x54, 0x52, 5, 0, 18, 0, 20, 0],
    [0x54, 0x52, 3, 0, 21, 0, 0, 0],
    [0x54, 0x52, 4, 0, 7, 0, 22, 0],
    [0x54, 0x52, 5, 0, 0, 0, 23, 0],
    [0x54, 0x52, 5, 0, 24, 0, 21, 0],
    [0x54, 0x45, 24, 0, 18, 0, 20, 0],
];

/// An image that was stored goes on as it is, beside the one that the same contract has today.
#[test]
fn an_image_compiled_earlier() {
    let earlier = Image::from_bytes(EARLIER.as_flattened()).unwrap();
    assert_eq!(earlier.rows(), 26);
    hold(&earlier, "a/a", open());
    hold(&earlier, "a/a, ab/a", open());
    hold(&earlier, "a/a, ab/a, -/-", broken(3, Blame::One));
    hold(&earlier, "ab/a", met(1));

    let today = until_b();
    hold(&today, "a/a", open());
    hold(&today, "a/a, ab/a", met(2));
    let met_after = reply(Verdict::MetAfter, None, 2);
    hold(&today, "a/a, ab/a, -/-", met_after);
    hold(&today, "ab/a", met(1));

    // A state that was stored with it goes on too.
    let periods = periods("a/a, ab/a, -/-");
    let mut stored = Monitor::begin(&earlier);
    stored.run(&periods[..1]).unwrap();
    let mut resumed = Monitor::resume(&earlier, stored.state()).unwrap();
    assert_eq!(resumed.step(periods[1]), Ok(open()));
    assert_eq!(resumed.step(periods[2]), Ok(broken(3, Blame::One)));
}

/// The blame is that of the window's last period, whatever came before.
#[test]
fn deadline() {
    let image = image(Clause::deadline(One, A, THREE), &[Deadline(One, A, THREE)]);
    hold(&image, "", open());
    hold(&image, "a/a", met(1));
    hold(&image, "-/a, a/a", met(2));
    hold(&image, "-/-, a/-", open());
    hold(&image, "-/-, a/-, a/a", met(3));
    hold(&image, "a/-, -/a, -/-", broken(3, Blame::One));
    hold(&image, "-/a, -/-, a/-", broken(3, Blame::Two));
    hold(&image, "a/-, a/-, -/a", broken(3, Blame::One));
}

/// A deadline means as many duties as its window has periods, each the repair of the one before.
#[test]
fn a_deadline_is_repaired_duties() {
    let random = &mut Random::new(1);
    for periods in 1..=Window::MAX {
        let window = Window::new(periods).unwrap();
        let duty = || Clause::duty(Two, B);
        let repaired = (1..periods).fold(duty(), |later, _| duty().repair(later));
        let clauses = [Clause::deadline(Two, B, window), repaired].map(Clause::repeat);
        let replies = alike(&clauses, random);
        let missed = |reply: &Reply| reply.verdict != Verdict::Open;
        assert!(replies.iter().any(missed), "window {periods}");
    }
}

/// The repair begins in the period after the window's last.
#[test]
fn a_missed_deadline_is_repaired() {
    let image = image(
        Clause::deadline(One, A, THREE)
            .repair(Clause::duty(One, B))
            .repeat(),
        &[Deadline(One, A, THREE), Duty(One.into(), B), Repair, Repeat],
    );
    hold(&image, "-/-, b/b, -/-, b/b, a/a", open());
    hold(&image, "-/-, b/b, -/-, b/-", broken(4, Blame::Two));
    hold(&image, "-/-, a/a, -/-, a/a, -/-", open());
}

/// Where the window's last period is that of the acceptance, the violation counts.
#[test]
fn a_deadline_until() {
    let notice = Expression::tries(Two, B);
    let image = image(
        Clause::deadline(One, A, THREE).until(notice),
        &[Deadline(One, A, THREE), Tries(Two, B), Until],
    );
    hold(&image, "-/-, -/b", met(2));
    hold(&image, "-/-, -/-, a/b", broken(3, Blame::Two));
    hold(&image, "-/-, -/-, -/-", broken(3, Blame::One));
    hold(&image, "-/-, -/-, a/ab", met(3));
}

/// Each action is its own bit of the masks, the upper sixteen among them.
#[test]
fn every_action() {
    for number in 0..Action::COUNT {
        let action = Action::new(number).unwrap();
        let image = image(Clause::duty(One, action), &[Duty(One.into(), action)]);
        let bit = 1 << number;
        let step = |one, two| {
            let period = Period::from_masks(one, two);
            Monitor::begin(&image).step(period).unwrap()
        };
        assert_eq!(step(bit, bit), met(1), "action {number}");
        assert_eq!(step(!bit, bit), broken(1, Blame::One), "action {number}");
        assert_eq!(step(bit, !bit), broken(1, Blame::Two), "action {number}");
    }
}

/// A narrow record has no attempts at upper actions.
#[test]
fn narrow_records_and_upper_actions() {
    const ALL: [u8; 6] = [0x54, 0x50, 0xff, 0xff, 0xff, 0xff];
    for number in 0..Action::COUNT {
        let action = Action::new(number).unwrap();
        let duty = image(Clause::duty(Two, action), &[Duty(Two.into(), action)]);
        let ban = image(Clause::ban(Two, action), &[Ban(Two, action)]);
        let [duty, ban] = [duty, ban].map(|image| Monitor::begin(&image).step_bytes(&ALL).unwrap());
        if number < 16 {
            assert_eq!(
                (duty, ban),
                (met(1), broken(1, Blame::Two)),
                "action {number}"
            );
        } else {
            assert_eq!(
                (duty, ban),
                (broken(1, Blame::Two), met(1)),
                "action {number}"
            );
        }
    }
}

/// The example of "Watch" with upper actions in the place of its two.
#[test]
fn upper_actions() {
    let [a, b] = [16, 31].map(|number| Action::new(number).unwrap());
    let image = image(
        Clause::duty(One, a).repair(Clause::duty(One, b)).repeat(),
        &[Duty(One.into(), a), Duty(One.into(), b), Repair, Repeat],
    );
    // a/a, -/-, b/-, a/a
    let trace = [
        [0x54, 0x51, 0, 0, 0x01, 0, 0, 0, 0x01, 0],
        [0x54, 0x51, 0, 0, 0, 0, 0, 0, 0, 0],
        [0x54, 0x51, 0, 0, 0, 0x80, 0, 0, 0, 0],
        [0x54, 0x51, 0, 0, 0x01, 0, 0, 0, 0x01, 0],
    ];
    let replies = [
        open(),
        open(),
        broken(3, Blame::Two),
        reply(Verdict::BrokenAfter, Some(Blame::Two), 3),
    ];
    let mut monitor = Monitor::begin(&image);
    for (record, want) in trace.iter().zip(replies) {
        assert_eq!(monitor.step_bytes(record), Ok(want));
    }
    let decided = image.decide_bytes(&trace.concat()).unwrap();
    assert_eq!((decided.outcome, decided.records), (Outcome::Violated, 3));
}

/// A verdict after the decision is met-after or broken-after, and the rest of the reply stays.
#[test]
fn after_the_decision() {
    let image = image(Clause::duty(One, A), &[Duty(One.into(), A)]);
    hold(&image, "a/a, -/-", reply(Verdict::MetAfter, None, 1));
    let want = reply(Verdict::BrokenAfter, Some(Blame::One), 1);
    hold(&image, "-/-, a/-, a/a", want);
}

/// The remaining expressions, each as the trigger of a duty.
#[test]
fn expressions() {
    let when = |expression: Expression, records: &[Record]| {
        let tree = Clause::when(expression, Clause::duty(One, A));
        image(tree, &[records, &[Duty(One.into(), A), When]].concat())
    };
    let idle = when(Expression::idle(Two, B), &[Idle(Two, B)]);
    hold(&idle, "-/-, -/-", broken(2, Blame::One));
    hold(&idle, "-/b", met(1));
    let succeeds = when(Expression::succeeds(B), &[Succeeds(B)]);
    hold(&succeeds, "b/b, a/-", broken(2, Blame::Two));
    hold(&succeeds, "b/-", met(1));
    let fails = when(Expression::fails(B), &[Fails(B)]);
    hold(&fails, "b/-, a/a", met(2));
    hold(&fails, "b/b", met(1));
    let either = when(
        Expression::tries(One, A).or(Expression::tries(Two, B)),
        &[Tries(One, A), Tries(Two, B), Or],
    );
    hold(&either, "-/b, -/-", broken(2, Blame::One));
    hold(&either, "-/-", met(1));
}

#[test]
fn watch() {
    let image = image(
        Clause::duty(One, A).repair(Clause::duty(One, B)).repeat(),
        &[Duty(One.into(), A), Duty(One.into(), B), Repair, Repeat],
    );
    let mut monitor = Monitor::begin(&image);
    let mut lines = Vec::new();
    for period in periods("a/a, -/-, b/-, a/a") {
        let reply = monitor.step(period).unwrap();
        let blame = reply.blame.map_or(0, Blame::number);
        lines.push(format!("{} {} {blame}", monitor.periods(), reply.verdict));
    }
    let decision = monitor.look().decision.map_or(0, NonZeroU32::get);
    lines.push(format!("decided {decision}"));
    assert_eq!(
        lines,
        [
            "1 open 0",
            "2 open 0",
            "3 broken 2",
            "4 broken-after 2",
            "decided 3"
        ]
    );
}
