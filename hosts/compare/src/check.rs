//! One case on the product and on the reference.

use crate::cases::{Call, Case, Start};
use crate::guard::Lent;
use crate::images::{names_upper, rows_of, ROW};
use crate::joins::{self, Joined, Judged};
use crate::random::Random;
use crate::report::{Difference, Tally};
use crate::stretches::accepted;
use crate::traces;
use monitor::calls as product;
use reference::calls::{self, read_period, short_reply, DECIDE_REPLY, LONG_REPLY, SHORT_REPLY};
use reference::contract::{compile, least_buffer, max_rows};
use reference::records::{four_bytes, read_trace};
use reference::state::HEAD_BYTES;
use reference::{image, Clause, Decision, Form, Monitor, Period, Refusal};
use std::rc::Rc;

/// Runs the case; an error is the first difference.
pub fn check(case: &Case, tally: &mut Tally) -> Result<(), Difference> {
    let mut random = Random::new(case.fill);
    match &case.start {
        Start::Contract {
            bytes,
            buffer,
            reply,
        } => {
            let lent = Lent::new("contract", bytes, &mut random);
            let compiled = check_compile(&lent, *buffer, *reply, &mut random, tally)?;
            let Some((clause, image)) = compiled else {
                return Ok(());
            };
            check_again(&lent, &image, &mut random)?;
            let state = random.bytes(10 + image.len() / 8 - 1);
            Calls::new(&image, &state, Some(clause), random).check(&case.calls, tally)
        }
        Start::Image { bytes, state } => {
            Calls::new(bytes, state, None, random).check(&case.calls, tally)
        }
    }
}

fn results(call: &str, expected: u32, came: u32) -> Result<(), Difference> {
    Difference::unless_same(call, "the result", &expected, &came)
}

/// The clause and the image of a contract that both take.
type Compiled = (Rc<Clause>, Vec<u8>);

/// Compile: its result and reply, the rows it may pick, and the bytes it must leave.
fn check_compile(
    contract: &Lent,
    buffer: usize,
    reply: usize,
    random: &mut Random,
    tally: &mut Tally,
) -> Result<Option<Compiled>, Difference> {
    const CALL: &str = "compile";
    let mut image = Lent::random("image buffer", buffer, random);
    let mut reply = Lent::random("reply area", reply, random);
    let came = product::compile(contract.product(), image.product_mut(), reply.product_mut());
    let has_room = reply.reference().len() >= SHORT_REPLY;
    results(CALL, u32::from(has_room), came)?;
    let mut taken = None;
    if has_room {
        let answer = compile(contract.reference(), buffer);
        tally.reply(
            CALL,
            answer.as_ref().err().map_or(0, |refusal| refusal.number),
        );
        let rows = four_bytes(reply.product(), 4);
        let expected = short_reply(answer.as_ref().map(|_| rows).map_err(|refusal| *refusal));
        reply.reference_mut()[..SHORT_REPLY].copy_from_slice(&expected);
        reply.compare(CALL)?;
        if let Ok(clause) = answer {
            let most = max_rows(contract.reference());
            let bytes = picked(&image, rows as usize, most)?.to_vec();
            image.reference_mut()[..bytes.len()].copy_from_slice(&bytes);
            tally.compiled(contract.reference(), rows as usize);
            taken = Some((clause, bytes));
        }
    } else {
        tally.no_room(CALL);
    }
    for lent in [contract, &image, &reply] {
        lent.compare(CALL)?;
    }
    Ok(taken)
}

/// The image in the first 8 × (rows + 1) bytes: a good one, of at most `most` rows.
fn picked(buffer: &Lent, rows: usize, most: usize) -> Result<&[u8], Difference> {
    if !(1..=most).contains(&rows) {
        return Err(Difference::new(
            "compile",
            "the row count",
            format!("1 to {most}"),
            rows,
        ));
    }
    let bytes = &buffer.product()[..8 * (rows + 1)];
    match image::read(bytes) {
        Ok(_) => Ok(bytes),
        Err(refusal) => {
            let came = format!("one that meets 9 at {}", refusal.place);
            Err(Difference::new(
                "compile",
                "the image",
                "a good one".to_string(),
                came,
            ))
        }
    }
}

/// Another compile, with a buffer of another length and content: the rows "follow from the
/// contract's bytes alone".
fn check_again(contract: &Lent, first: &[u8], random: &mut Random) -> Result<(), Difference> {
    const CALL: &str = "another compile";
    let least = least_buffer(contract.reference());
    let mut image = Lent::random("image buffer", least + random.below(100), random);
    let mut reply = Lent::random("reply area", 2048, random);
    let came = product::compile(contract.product(), image.product_mut(), reply.product_mut());
    results(CALL, 1, came)?;
    image.reference_mut()[..first.len()].copy_from_slice(first);
    let expected = short_reply(Ok((first.len() / 8 - 1) as u32));
    reply.reference_mut()[..SHORT_REPLY].copy_from_slice(&expected);
    for lent in [contract, &reply, &image] {
        lent.compare(CALL)?;
    }
    Ok(())
}

/// Step or run: its name, the product's and the reference's, and whether it takes a trace.
struct Taking {
    name: &'static str,
    product: Take,
    reference: Take,
    takes_trace: bool,
}

/// Image, state, period records, reply area.
type Take = fn(&[u8], &mut [u8], &[u8], &mut [u8]) -> u32;

const STEP: Taking = Taking {
    name: "step",
    product: product::step,
    reference: calls::step,
    takes_trace: false,
};
const RUN: Taking = Taking {
    name: "run",
    product: product::run,
    reference: calls::run,
    takes_trace: true,
};

/// Records of the other form with the same attempts leave the same state and get the same reply,
/// where there are such records.
fn same_in_other_form(
    call: &str,
    trace: &[u8],
    before: &[u8],
    [state, reply]: [&[u8]; 2],
    again: impl FnOnce(&[u8], &mut [u8], &mut [u8]),
) -> Result<(), Difference> {
    let Some(trace) = traces::in_other_form(trace) else {
        return Ok(());
    };
    let (mut other_state, mut other_reply) = (before.to_vec(), vec![0; reply.len()]);
    again(&trace, &mut other_state, &mut other_reply);
    let same = |what, given: &[u8], other: &[u8]| {
        Difference::unless_same(call, what, &given, &other)
            .map_err(|difference| difference.between(&["given", "other"]))
    };
    same("the state, by the form of the records", state, &other_state)?;
    same("the reply, by the form of the records", reply, &other_reply)
}

/// The wrapper reads records as the reference does, as a trace and as one record. Periods are
/// compared as wide records.
fn same_when_read(call: &str, records: &[u8]) -> Result<(), Difference> {
    let meant = |read: Result<Vec<Period>, Refusal>| {
        read.map(|periods| traces::bytes(Form::Wide, &periods))
            .map_err(|refusal| (refusal.number, refusal.place))
    };
    let came = |read: Result<Vec<monitor::Period>, monitor::Refusal>| {
        read.map(|periods| monitor::Period::trace(&periods).to_vec())
            .map_err(|refusal| (refusal.fault.number(), refusal.place))
    };
    let same =
        |what, expected, read| Difference::unless_same(call, what, &meant(expected), &came(read));
    let trace = monitor::Period::read_trace(records);
    same("a trace, read by the wrapper", read_trace(records), trace)?;
    let one = monitor::Period::from_bytes(records).map(|period| vec![period]);
    same("a record, read by the wrapper", read_period(records), one)
}

/// Calls on one image and one state.
struct Calls {
    image: Lent,
    state: Lent,
    /// The contract's clause, if the image is compile's.
    clause: Option<Rc<Clause>>,
    /// The meaning of the periods since begin, where there is a clause.
    meaning: Option<Monitor>,
    /// Whether a row names an upper action.
    names_upper: bool,
    random: Random,
}

impl Calls {
    fn new(image: &[u8], state: &[u8], clause: Option<Rc<Clause>>, mut random: Random) -> Calls {
        Calls {
            image: Lent::new("image", image, &mut random),
            state: Lent::new("state", state, &mut random),
            clause,
            meaning: None,
            names_upper: image.chunks_exact(ROW).any(names_upper),
            random,
        }
    }

    fn check(mut self, calls: &[Call], tally: &mut Tally) -> Result<(), Difference> {
        for (number, call) in calls.iter().enumerate() {
            if let Some(records) = call.records() {
                same_when_read(&format!("call {number}"), records)?;
            }
            match call {
                Call::Begin { reply } => {
                    self.begin(&format!("call {number}, begin"), *reply, tally)?;
                }
                Call::Step { period, reply } => {
                    self.take(
                        &format!("call {number}, step"),
                        &STEP,
                        period,
                        *reply,
                        tally,
                    )?;
                }
                Call::Run { trace, reply } => {
                    self.take(&format!("call {number}, run"), &RUN, trace, *reply, tally)?;
                }
                Call::Decide { trace, reply } => {
                    self.decide(&format!("call {number}, decide"), trace, *reply, tally)?;
                }
                Call::Join { logs, trace, reply } => {
                    let call = format!("call {number}, join");
                    let (lengths, random) = ([*trace, *reply], &mut self.random);
                    if let Some(joined) = joins::check(&call, logs, lengths, random, tally)? {
                        self.judged(&call, &joined, tally)?;
                    }
                }
            }
        }
        if let Some(meaning) = &self.meaning {
            tally.decided(meaning);
        }
        Ok(())
    }

    fn begin(&mut self, call: &str, reply: usize, tally: &mut Tally) -> Result<(), Difference> {
        let mut reply = Lent::random("reply area", reply, &mut self.random);
        let came = product::begin(
            self.image.product(),
            self.state.product_mut(),
            reply.product_mut(),
        );
        let expected = calls::begin(
            self.image.reference(),
            self.state.reference_mut(),
            reply.reference_mut(),
        );
        results(call, expected, came)?;
        self.compare(call, &reply)?;
        if tally.result("begin", expected, reply.reference()) {
            self.meaning = self.clause.as_ref().map(|clause| Monitor::new(clause));
        }
        Ok(())
    }

    fn take(
        &mut self,
        call: &str,
        taking: &Taking,
        trace: &[u8],
        reply: usize,
        tally: &mut Tally,
    ) -> Result<(), Difference> {
        let before = self.state.product().to_vec();
        let trace = Lent::new("period records", trace, &mut self.random);
        let mut reply = Lent::random("reply area", reply, &mut self.random);
        let came = (taking.product)(
            self.image.product(),
            self.state.product_mut(),
            trace.product(),
            reply.product_mut(),
        );
        let expected = (taking.reference)(
            self.image.reference(),
            self.state.reference_mut(),
            trace.reference(),
            reply.reference_mut(),
        );
        results(call, expected, came)?;
        trace.compare(call)?;
        self.compare(call, &reply)?;
        let (trace, reply) = (trace.reference(), reply.product());
        if expected == 1 {
            let left = [self.state.product(), &reply[..LONG_REPLY]];
            same_in_other_form(call, trace, &before, left, |trace, state, reply| {
                (taking.product)(self.image.product(), state, trace, reply);
            })?;
        }
        if tally.result(taking.name, expected, reply) {
            tally.form(Form::of_mark(trace), self.names_upper);
            self.taken(call, trace, reply, tally)?;
            if taking.takes_trace {
                self.same_as_steps(call, before, trace, reply)?;
            }
        }
        Ok(())
    }

    fn decide(
        &mut self,
        call: &str,
        trace: &[u8],
        reply: usize,
        tally: &mut Tally,
    ) -> Result<(), Difference> {
        let trace = Lent::new("trace", trace, &mut self.random);
        let mut reply = Lent::random("reply area", reply, &mut self.random);
        let came = product::decide(self.image.product(), trace.product(), reply.product_mut());
        let expected = calls::decide(
            self.image.reference(),
            trace.reference(),
            reply.reference_mut(),
        );
        results(call, expected, came)?;
        trace.compare(call)?;
        self.compare(call, &reply)?;
        let (trace, reply) = (trace.reference(), reply.product());
        if expected == 1 {
            if let Some((number, decision)) = self.first_bad_mark(trace) {
                tally.bad_mark(number, decision);
            }
            let left = [&[], &reply[..DECIDE_REPLY]];
            same_in_other_form(call, trace, &[], left, |trace, _, reply| {
                product::decide(self.image.product(), trace, reply);
            })?;
        }
        if tally.result("decide", expected, reply) {
            tally.form(Form::of_mark(trace), self.names_upper);
            tally.decide(four_bytes(reply, 4));
            if let Some(clause) = &self.clause {
                let read = four_bytes(reply, 24) as usize;
                tally.accepted(accepted(clause, traces::periods(trace).take(read)));
            }
            self.decided(call, trace, reply)?;
            self.same_as_run(call, trace, reply)?;
        }
        Ok(())
    }

    /// The number of the first record with a bad mark, and the decision period of the trace with
    /// good marks, if image and length are good. Where the first mark is bad, the length tells the
    /// form.
    fn first_bad_mark(&self, trace: &[u8]) -> Option<(usize, usize)> {
        let fits = |form: &Form| trace.len().is_multiple_of(form.record_bytes());
        let form = Form::of_mark(trace).or_else(|| Form::ALL.into_iter().find(fits))?;
        let mut good = trace.to_vec();
        for record in good.chunks_exact_mut(form.record_bytes()) {
            record[..2].copy_from_slice(&form.mark());
        }
        let at = trace.iter().zip(&good).position(|(was, is)| was != is)?;
        let mut reply = [0; DECIDE_REPLY];
        calls::decide(self.image.reference(), &good, &mut reply);
        let decision = four_bytes(&reply, 20) as usize;
        (four_bytes(&reply, 0) == 0).then_some((at / form.record_bytes(), decision))
    }

    fn compare(&self, call: &str, reply: &Lent) -> Result<(), Difference> {
        reply.compare(call)?;
        self.state.compare(call)?;
        self.image.compare(call)
    }

    /// An accepted call: its reply tells the meaning of the periods so far.
    fn taken(
        &mut self,
        call: &str,
        trace: &[u8],
        reply: &[u8],
        tally: &mut Tally,
    ) -> Result<(), Difference> {
        tally.verdict(four_bytes(reply, 4));
        let Some(meaning) = &mut self.meaning else {
            return Ok(());
        };
        for period in traces::periods(trace) {
            meaning.step(period.one, period.two);
        }
        let expected = [
            meaning.verdict().number(),
            meaning.blame().into(),
            meaning.decision_period() as u32,
        ];
        let came = [4, 16, 20].map(|at| four_bytes(reply, at));
        let what = "the contract's verdict, blame and decision period";
        Difference::unless_same(call, what, &expected, &came)
    }

    /// An accepted decide: its reply tells the meaning of the trace up to the decision.
    fn decided(&self, call: &str, trace: &[u8], reply: &[u8]) -> Result<(), Difference> {
        let Some(clause) = &self.clause else {
            return Ok(());
        };
        let mut meaning = Monitor::new(clause);
        for period in traces::periods(trace) {
            if meaning.decision() != Decision::Undecided {
                break;
            }
            meaning.step(period.one, period.two);
        }
        let expected = [
            meaning.decision().outcome().into(),
            meaning.blame().into(),
            meaning.decision_period() as u32,
            meaning.periods() as u32,
        ];
        let came = [4, 16, 20, 24].map(|at| four_bytes(reply, at));
        let what = "the contract's outcome, blame, decision period and records read";
        Difference::unless_same(call, what, &expected, &came)
    }

    /// "On a fresh state, run over just the records read leaves the same outcome, blame and
    /// decision." That it takes all of them shows that it is accepted.
    fn same_as_run(&self, call: &str, trace: &[u8], reply: &[u8]) -> Result<(), Difference> {
        let image = self.image.product();
        let read = four_bytes(reply, 24) as usize;
        let read = &trace[..trace.len().min(read * traces::record_bytes(trace))];
        let mut state = vec![0xff; HEAD_BYTES + rows_of(image)];
        product::begin(image, &mut state, &mut [0; SHORT_REPLY]);
        product::run(image, &mut state, read, &mut [0; LONG_REPLY]);
        let (taken, decision) = (four_bytes(&state, 2), four_bytes(&state, 6));
        let ran = [state[0].into(), state[1].into(), decision, taken];
        let decided = [4, 16, 20, 24].map(|at| four_bytes(reply, at));
        let what = "outcome, blame, decision and periods taken of a run over the records read";
        Difference::unless_same(call, what, &ran, &decided)
            .map_err(|difference| difference.between(&["run", "decide"]))
    }

    /// The trace that join wrote is one: run takes all of it, on a state just begun, and decide reads
    /// it; they say what the reference says of the joined periods.
    fn judged(&self, call: &str, joined: &Joined, tally: &mut Tally) -> Result<(), Difference> {
        let Ok(image) = image::read(self.image.reference()) else {
            return Ok(());
        };
        let meant = Judged::meant(&image, &joined.periods);
        let came = Judged::came(self.image.product(), &joined.trace);
        meant.compare(call, &came)?;
        tally.decide(four_bytes(&came.decided, 4));
        self.decided(call, &joined.trace, &came.decided)
    }

    /// A run "ends as that many steps would".
    fn same_as_steps(
        &self,
        call: &str,
        mut state: Vec<u8>,
        trace: &[u8],
        reply: &[u8],
    ) -> Result<(), Difference> {
        let mut last = [0; LONG_REPLY];
        for record in trace.chunks(traces::record_bytes(trace)) {
            product::step(self.image.product(), &mut state, record, &mut last);
        }
        let same = |what, steps: &[u8], run: &[u8]| {
            Difference::unless_same(call, what, &steps, &run)
                .map_err(|difference| difference.between(&["steps", "run"]))
        };
        let what = "the state after a run and after its steps";
        same(what, &state, self.state.product())?;
        if trace.is_empty() {
            return Ok(());
        }
        let what = "the reply of a run and of its last step";
        same(what, &last, &reply[..LONG_REPLY])
    }
}

#[cfg(test)]
mod tests {
    use super::*;
    use reference::contract::read;

    /// A duty and a ban, both of party 1 on action 0, and a joint duty.
    const DUTY: [u8; 6] = [0x54, 0x43, 1, 1, 0, 0];
    const BAN: [u8; 6] = [0x54, 0x43, 2, 1, 0, 0];
    const JOINT_DUTY: [u8; 6] = [0x54, 0x43, 1, 3, 0, 0];
    /// A period without attempts: it breaks the duties, with another blame each, and meets the ban.
    const QUIET: [u8; 6] = [0x54, 0x50, 0, 0, 0, 0];

    fn image_of(contract: &[u8]) -> Vec<u8> {
        let mut random = Random::new(1);
        let buffer = least_buffer(contract);
        let contract = Lent::new("contract", contract, &mut random);
        check_compile(&contract, buffer, 16, &mut random, &mut Tally::default())
            .unwrap()
            .expect("the contract is taken")
            .1
    }

    /// Calls on the duty's image, to be compared with what this contract means.
    fn calls(meaning: &[u8]) -> Calls {
        let image = image_of(&DUTY);
        let state = vec![0; 10 + image.len() / 8 - 1];
        let clause = read(meaning).expect("the contract is taken");
        Calls::new(&image, &state, Some(clause), Random::new(1))
    }

    #[test]
    fn another_meaning_is_a_difference() {
        let step = Call::Step {
            period: QUIET.to_vec(),
            reply: 24,
        };
        let run = Call::Run {
            trace: [QUIET, QUIET].concat(),
            reply: 24,
        };
        let decide = Call::Decide {
            trace: [QUIET, QUIET].concat(),
            reply: 32,
        };
        let tally = &mut Tally::default();
        for call in [step, run, decide] {
            let list = [Call::Begin { reply: 16 }, call];
            calls(&DUTY).check(&list, tally).unwrap();
            for other in [BAN, JOINT_DUTY] {
                let difference = calls(&other).check(&list, tally).unwrap_err();
                assert!(difference.to_string().contains("the contract's "));
            }
        }
    }

    #[test]
    fn another_state_is_a_difference() {
        let tally = &mut Tally::default();
        let mut calls = calls(&DUTY);
        calls.begin("begin", 16, tally).unwrap();
        calls.state.product_mut()[0] ^= 1;
        assert!(calls.take("step", &STEP, &QUIET, 24, tally).is_err());
    }

    #[test]
    fn a_run_unlike_its_steps_is_a_difference() {
        let tally = &mut Tally::default();
        let mut calls = calls(&DUTY);
        calls.begin("begin", 16, tally).unwrap();
        let before = calls.state.product().to_vec();
        calls.take("step", &STEP, &QUIET, 24, tally).unwrap();
        let mut reply = [0; LONG_REPLY];
        product::step(
            calls.image.product(),
            &mut before.clone(),
            &QUIET,
            &mut reply,
        );
        let same =
            |trace: &[u8], reply: &[u8]| calls.same_as_steps("run", before.clone(), trace, reply);
        same(&QUIET, &reply).unwrap();
        assert!(same(&[], &reply).is_err(), "another state");
        reply[4] ^= 1;
        assert!(same(&QUIET, &reply).is_err(), "another reply");
    }

    #[test]
    fn another_end_in_the_other_form_is_a_difference() {
        let ends = |state: u8, reply: u8| {
            let left: [&[u8]; 2] = [&[1], &[2]];
            same_in_other_form("step", &QUIET, &[0], left, |trace, states, replies| {
                assert_eq!(trace, [0x54, 0x51, 0, 0, 0, 0, 0, 0, 0, 0]);
                (states[0], replies[0]) = (state, reply);
            })
        };
        ends(1, 2).unwrap();
        assert!(ends(0, 2).is_err(), "another state");
        assert!(ends(1, 0).is_err(), "another reply");
    }

    #[test]
    fn another_reply_of_decide_is_a_difference() {
        let tally = &mut Tally::default();
        let mut calls = calls(&DUTY);
        calls.decide("decide", &QUIET, 32, tally).unwrap();
        // A row of no kind: the product refuses.
        calls.image.product_mut()[2] = 7;
        let difference = calls.decide("decide", &QUIET, 32, tally).unwrap_err();
        assert!(difference.to_string().contains("of the reply area"));
    }

    #[test]
    fn a_decide_unlike_its_run_is_a_difference() {
        let calls = calls(&DUTY);
        let trace = [QUIET, QUIET].concat();
        let mut reply = [0; DECIDE_REPLY];
        product::decide(calls.image.product(), &trace, &mut reply);
        calls.same_as_run("decide", &trace, &reply).unwrap();
        for (at, what) in [
            (4, "outcome"),
            (16, "blame"),
            (20, "decision period"),
            (24, "records read"),
        ] {
            let mut other = reply;
            other[at] ^= 1;
            let same = calls.same_as_run("decide", &trace, &other);
            assert!(same.is_err(), "another {what}");
        }
    }

    #[test]
    fn other_joined_periods_are_a_difference() {
        const BOTH: Period = Period { one: 1, two: 1 };
        const NOBODY: Period = Period { one: 0, two: 0 };
        let judged = |periods: [Period; 2], trace: [Period; 2], meaning: &[u8]| {
            let joined = Joined {
                trace: traces::bytes(Form::Wide, &trace),
                periods: periods.to_vec(),
            };
            let judged = calls(meaning).judged("join", &joined, &mut Tally::default());
            judged.err().map(|difference| difference.to_string())
        };
        let (met, broken) = ([BOTH, NOBODY], [NOBODY, BOTH]);
        for periods in [met, broken] {
            assert_eq!(judged(periods, periods, &DUTY), None);
        }
        for (periods, trace) in [(met, broken), (broken, met)] {
            let difference = judged(periods, trace, &DUTY).unwrap();
            assert!(difference.contains("a run over the joined periods"));
        }
        // After the decision the periods are only counted.
        assert_eq!(judged(met, [BOTH, BOTH], &DUTY), None);
        let difference = judged(broken, broken, &JOINT_DUTY).unwrap();
        assert!(difference.contains("the contract's outcome"));
    }

    #[test]
    fn a_trace_that_is_none_is_a_difference() {
        let joined = Joined {
            trace: vec![0x54, 0x51, 0, 0, 0, 0, 0, 0, 0],
            periods: vec![Period { one: 0, two: 0 }],
        };
        let judged = calls(&DUTY).judged("join", &joined, &mut Tally::default());
        assert!(judged.is_err());
    }

    #[test]
    fn the_first_bad_mark_is_found() {
        const BAD: [u8; 6] = [0x54, 0x43, 0, 0, 0, 0];
        let calls = calls(&DUTY);
        let found = |trace: &[u8]| calls.first_bad_mark(trace);
        assert_eq!(found(&[]), None);
        assert_eq!(found(&QUIET), None);
        assert_eq!(found(&BAD), Some((0, 1)));
        assert_eq!(
            found(&[QUIET, QUIET, BAD, QUIET, BAD].concat()),
            Some((2, 1))
        );
        assert_eq!(found(&[QUIET, BAD].concat()[..11]), None, "a bad length");

        let wide = [0x54, 0x51, 0, 0, 0, 0, 0, 0, 0, 0];
        let mut trace = [wide, wide, wide].concat();
        assert_eq!(found(&trace), None);
        trace[21] = 0x50;
        assert_eq!(found(&trace), Some((2, 1)));
        trace[0] = 0;
        assert_eq!(found(&trace[..20]), Some((0, 1)), "by the length");
    }

    #[test]
    fn another_image_is_a_difference() {
        let random = &mut Random::new(1);
        let contract = Lent::new("contract", &DUTY, random);
        let image = image_of(&DUTY);
        check_again(&contract, &image, random).unwrap();
        assert!(check_again(&contract, &image_of(&BAN), random).is_err());

        let rows = image.len() / 8 - 1;
        let buffer = |image: &[u8]| Lent::new("image buffer", image, &mut Random::new(1));
        assert!(picked(&buffer(&image), rows, rows).is_ok());
        assert!(picked(&buffer(&image), 0, rows).is_err());
        assert!(picked(&buffer(&image), rows, rows - 1).is_err());
        assert!(picked(&buffer(&vec![0; image.len()]), rows, rows).is_err());
    }
}
