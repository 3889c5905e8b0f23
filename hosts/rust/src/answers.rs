//! The six calls with a reply area of the right length, and what the reply says.
//!
//! Four things are proved of the calls and taken for granted here, by a panic where they fail: the
//! result is 1 where the reply has room; a number other than 0 is one of the refusals 1 to 12 and
//! 14 to 16; verdict, outcome and blame of an accepted call are numbers of verdicts, outcomes and
//! blames; a state that begin, step or run accepted is left sound.

use core::num::NonZeroU32;

use crate::{calls, Blame, DecideReply, Fault, Outcome, Refusal, Reply, RunReply, Verdict};

/// The bytes of compile's, begin's and join's reply.
const SHORT_REPLY: usize = 16;
/// The bytes of step's and run's reply.
const LONG_REPLY: usize = 24;
/// The bytes of decide's reply.
const DECIDE_REPLY: usize = 32;

/// A four-byte field, low byte first.
fn u32_at(bytes: &[u8], at: usize) -> u32 {
    u32::from_le_bytes([bytes[at], bytes[at + 1], bytes[at + 2], bytes[at + 3]])
}

/// The row count.
pub fn compile(contract: &[u8], image: &mut [u8]) -> Result<u32, Refusal> {
    let mut reply = [0; SHORT_REPLY];
    let result = calls::compile(contract, image, &mut reply);
    accepted(result, &reply)?;
    Ok(u32_at(&reply, 4))
}

pub fn begin(image: &[u8], state: &mut [u8]) -> Result<(), Refusal> {
    let mut reply = [0; SHORT_REPLY];
    let result = calls::begin(image, state, &mut reply);
    accepted(result, &reply)
}

pub fn step(image: &[u8], state: &mut [u8], period: &[u8]) -> Result<Reply, Refusal> {
    let mut reply = [0; LONG_REPLY];
    let result = calls::step(image, state, period, &mut reply);
    accepted(result, &reply)?;
    Ok(answer(&reply))
}

pub fn run(image: &[u8], state: &mut [u8], trace: &[u8]) -> Result<RunReply, Refusal> {
    let mut reply = [0; LONG_REPLY];
    let result = calls::run(image, state, trace, &mut reply);
    accepted(result, &reply)?;
    Ok(RunReply {
        reply: answer(&reply),
    })
}

pub fn decide(image: &[u8], trace: &[u8]) -> Result<DecideReply, Refusal> {
    let mut reply = [0; DECIDE_REPLY];
    let result = calls::decide(image, trace, &mut reply);
    accepted(result, &reply)?;
    Ok(DecideReply {
        outcome: outcome(u32_at(&reply, 4)),
        blame: blame(u32_at(&reply, 16)),
        decision: NonZeroU32::new(u32_at(&reply, 20)),
        records: u32_at(&reply, 24),
    })
}

/// The trace's record count.
pub fn join(log1: &[u8], log2: &[u8], trace: &mut [u8]) -> Result<u32, Refusal> {
    let mut reply = [0; SHORT_REPLY];
    let result = calls::join(log1, log2, trace, &mut reply);
    accepted(result, &reply)?;
    Ok(u32_at(&reply, 4))
}

/// How many periods a state has taken.
pub fn periods(state: &[u8]) -> u32 {
    u32_at(state, 2)
}

/// What a sound state shows: the answer of a run of no records. Its first byte is the outcome, its
/// second the blame; the decision period starts at byte 6.
pub fn shown(state: &[u8]) -> Reply {
    let decision = u32_at(state, 6);
    let verdict = match (outcome(u32::from(state[0])), decision == periods(state)) {
        (Outcome::Undecided, _) => Verdict::Open,
        (Outcome::Satisfied, true) => Verdict::Met,
        (Outcome::Satisfied, false) => Verdict::MetAfter,
        (Outcome::Violated, true) => Verdict::Broken,
        (Outcome::Violated, false) => Verdict::BrokenAfter,
    };
    reply(verdict, u32::from(state[1]), decision)
}

/// Every reply starts with the number, and has the place from byte 8.
fn accepted(result: u32, reply: &[u8]) -> Result<(), Refusal> {
    assert_eq!(result, 1, "the reply has room");
    match u32_at(reply, 0) {
        0 => Ok(()),
        number => Err(Refusal {
            fault: Fault::from_number(number).expect("a call gives such a refusal"),
            place: u64::from(u32_at(reply, 8)) | u64::from(u32_at(reply, 12)) << 32,
        }),
    }
}

fn answer(area: &[u8; LONG_REPLY]) -> Reply {
    let verdict = Verdict::from_number(u32_at(area, 4)).expect("a verdict is 0 to 4");
    reply(verdict, u32_at(area, 16), u32_at(area, 20))
}

/// Blame and decision period are 0 for none.
fn reply(verdict: Verdict, blame_number: u32, decision: u32) -> Reply {
    Reply {
        verdict,
        blame: blame(blame_number),
        decision: NonZeroU32::new(decision),
    }
}

fn outcome(number: u32) -> Outcome {
    Outcome::from_number(number).expect("an outcome is 0 to 2")
}

fn blame(number: u32) -> Option<Blame> {
    match number {
        0 => None,
        number => Some(Blame::from_number(number).expect("a blame is 0 to 3")),
    }
}
