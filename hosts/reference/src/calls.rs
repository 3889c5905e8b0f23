//! What begin, step, run and decide leave in the areas that they are lent; for join see
//! [`crate::logs`].
//!
//! The result is 1, or 0 if the reply area "is too short for the reply": then "the call writes
//! nothing anywhere". After a refusal "every lent buffer but the reply's area is unchanged".

use crate::image;
use crate::records::{
    count_records, form_of, read_record, read_trace, refused, Form, Period, Refusal,
};
use crate::state::{check_length, State};

/// Bytes of the reply of compile, begin and join: number, a four-byte field, place.
pub const SHORT_REPLY: usize = 16;
/// Bytes of the reply of step and run: number, verdict, place, blame, decision period.
pub const LONG_REPLY: usize = 24;
/// Bytes of the reply of decide: number, outcome, place, blame, decision period, records read, and
/// a four-byte zero.
pub const DECIDE_REPLY: usize = 32;

/// The reply of compile: number, rows, place. In place of the rows begin's has a zero, and join's
/// the trace's record count.
pub fn short_reply(answer: Result<u32, Refusal>) -> [u8; SHORT_REPLY] {
    let (number, count, place) = match answer {
        Ok(count) => (0, count, 0),
        Err(refusal) => (refusal.number, 0, refusal.place),
    };
    let mut reply = [0; SHORT_REPLY];
    reply[0..4].copy_from_slice(&number.to_le_bytes());
    reply[4..8].copy_from_slice(&count.to_le_bytes());
    reply[8..16].copy_from_slice(&place.to_le_bytes());
    reply
}

/// The reply of step and run: "verdict, blame and decision period of the state they leave".
pub fn long_reply(answer: &Result<State, Refusal>) -> [u8; LONG_REPLY] {
    let mut reply = [0; LONG_REPLY];
    match answer {
        Ok(state) => {
            let decision = state.decided();
            let verdict = decision.verdict(state.periods as usize);
            reply[4..8].copy_from_slice(&verdict.number().to_le_bytes());
            reply[16..20].copy_from_slice(&u32::from(decision.blame()).to_le_bytes());
            reply[20..24].copy_from_slice(&state.decision.to_le_bytes());
        }
        Err(refusal) => {
            reply[0..4].copy_from_slice(&refusal.number.to_le_bytes());
            reply[8..16].copy_from_slice(&refusal.place.to_le_bytes());
        }
    }
    reply
}

/// The reply of decide: "outcome, blame, decision period and the number of period records it read".
pub fn decide_reply(answer: &Result<State, Refusal>) -> [u8; DECIDE_REPLY] {
    let mut reply = [0; DECIDE_REPLY];
    // But for the verdict, what run replies stands in the same places.
    reply[..LONG_REPLY].copy_from_slice(&long_reply(answer));
    if let Ok(state) = answer {
        reply[4..8].copy_from_slice(&u32::from(state.outcome).to_le_bytes());
        reply[24..28].copy_from_slice(&state.periods.to_le_bytes());
    }
    reply
}

/// "Begin sets a state to zeros."
pub fn begin(image: &[u8], state: &mut [u8], reply: &mut [u8]) -> u32 {
    if reply.len() < SHORT_REPLY {
        return 0;
    }
    let answer = image::read(image).and_then(|image| check_length(state, &image));
    if answer.is_ok() {
        state.fill(0);
    }
    reply[..SHORT_REPLY].copy_from_slice(&short_reply(answer.map(|()| 0)));
    1
}

/// "Step takes one period record."
pub fn step(image: &[u8], state: &mut [u8], period: &[u8], reply: &mut [u8]) -> u32 {
    take(image, state, || read_period(period), reply)
}

/// "Run takes a state and a trace of zero or more period records and ends as that many steps
/// would."
pub fn run(image: &[u8], state: &mut [u8], trace: &[u8], reply: &mut [u8]) -> u32 {
    take(image, state, || read_trace(trace), reply)
}

/// "A new call takes an image and a trace": decide.
pub fn decide(image: &[u8], trace: &[u8], reply: &mut [u8]) -> u32 {
    if reply.len() < DECIDE_REPLY {
        return 0;
    }
    let answer = read_to_decision(image, trace);
    reply[..DECIDE_REPLY].copy_from_slice(&decide_reply(&answer));
    1
}

/// The state at the decision, or at the trace's end when undecided, or the first of refusals 9, 11
/// and 12. The periods taken are the records read.
fn read_to_decision(image: &[u8], trace: &[u8]) -> Result<State, Refusal> {
    let image = image::read(image)?;
    let mut state = State::fresh(&image);
    let Some(form) = form_of(trace)? else {
        return Ok(state);
    };
    check_trace_length(form, trace.len())?;
    for (number, record) in trace.chunks(form.record_bytes()).enumerate() {
        // "Records after the decision aren't looked at."
        if state.outcome != 0 {
            break;
        }
        state.step(&image, read_record(form, record, number)?);
    }
    Ok(state)
}

/// The length of a trace of that form, or refusal 11. "A trace of more than 4,294,967,295 records
/// meets 12 next", with the "first record too many" as its place.
pub fn check_trace_length(form: Form, length: usize) -> Result<(), Refusal> {
    let most = u32::MAX as usize;
    if count_records(form, length)? > most {
        return refused(12, most);
    }
    Ok(())
}

/// The one period of a step, or refusal 11 for all but one whole record of either form.
pub fn read_period(period: &[u8]) -> Result<Vec<Period>, Refusal> {
    match form_of(period)? {
        Some(form) if period.len() == form.record_bytes() => {
            Ok(vec![Period::of_record(form, period)])
        }
        _ => refused(11, 0),
    }
}

/// Step and run, which differ in what they read.
fn take(
    image: &[u8],
    state: &mut [u8],
    read: impl FnOnce() -> Result<Vec<Period>, Refusal>,
    reply: &mut [u8],
) -> u32 {
    if reply.len() < LONG_REPLY {
        return 0;
    }
    let answer = after(image, state, read);
    if let Ok(after) = &answer {
        after.write(state);
    }
    reply[..LONG_REPLY].copy_from_slice(&long_reply(&answer));
    1
}

/// The state after the periods, or the first of refusals 9, 10, 11, 12.
fn after(
    image: &[u8],
    state: &[u8],
    read: impl FnOnce() -> Result<Vec<Period>, Refusal>,
) -> Result<State, Refusal> {
    let image = image::read(image)?;
    let mut state = State::read(state, &image)?;
    let periods = read()?;
    let room = (u32::MAX - state.periods) as usize;
    if periods.len() > room {
        return refused(12, room);
    }
    for period in periods {
        state.step(&image, period);
    }
    Ok(state)
}
