//! Join on the product and on the reference, and what run and decide say of the joined periods.

use crate::guard::Lent;
use crate::images::rows_of;
use crate::random::Random;
use crate::report::{Difference, Tally};
use crate::traces;
use monitor::{calls as product, join_bytes, LogRecord};
use reference::calls::{decide_reply, long_reply, DECIDE_REPLY, LONG_REPLY, SHORT_REPLY};
use reference::image::Image;
use reference::logs::{self, joined};
use reference::records::four_bytes;
use reference::state::{State, HEAD_BYTES};
use reference::{Form, Period, Refusal};

/// Bytes of a wide record.
const WIDE: usize = Form::Wide.record_bytes();

/// The trace that an accepted join wrote, and the periods that the reference joins.
pub struct Joined {
    pub trace: Vec<u8>,
    pub periods: Vec<Period>,
}

/// The product's call: two logs, trace buffer, reply area.
type Join = fn(&[u8], &[u8], &mut [u8], &mut [u8]) -> u32;

/// Compares one call, with a trace buffer and a reply area of these lengths; what it gives where it
/// is accepted.
pub fn check(
    call: &str,
    logs: &[Vec<u8>; 2],
    lengths: [usize; 2],
    random: &mut Random,
    tally: &mut Tally,
) -> Result<Option<Joined>, Difference> {
    check_call(product::join, call, logs, lengths, random, tally)
}

fn check_call(
    product: Join,
    call: &str,
    logs: &[Vec<u8>; 2],
    lengths: [usize; 2],
    random: &mut Random,
    tally: &mut Tally,
) -> Result<Option<Joined>, Difference> {
    let (result, trace, reply) = same_call(product, call, logs, lengths, random)?;
    let [log1, log2] = logs;
    let periods = joined(log1, log2);
    same_by_wrapper(call, [log1, log2], &periods)?;
    if result == 1 {
        tally.join(log1, log2, &reply);
    }
    if !tally.result("join", result, &reply) {
        return Ok(None);
    }
    let written = WIDE * four_bytes(&reply, 4) as usize;
    let trace = trace[..written].to_vec();
    same_when_exchanged(product, call, [log1, log2], &trace, &reply[..SHORT_REPLY])?;
    let periods = periods.expect("the reference has joined them");
    Ok(Some(Joined { trace, periods }))
}

/// The call on both sides: its result, the trace buffer and the reply area after it.
fn same_call(
    product: Join,
    call: &str,
    logs: &[Vec<u8>; 2],
    [buffer, reply]: [usize; 2],
    random: &mut Random,
) -> Result<(u32, Vec<u8>, Vec<u8>), Difference> {
    let one = Lent::new("log 1", &logs[0], random);
    let two = Lent::new("log 2", &logs[1], random);
    let mut trace = Lent::random("trace buffer", buffer, random);
    let mut reply = Lent::random("reply area", reply, random);
    let came = product(
        one.product(),
        two.product(),
        trace.product_mut(),
        reply.product_mut(),
    );
    let expected = logs::join(
        one.reference(),
        two.reference(),
        trace.reference_mut(),
        reply.reference_mut(),
    );
    Difference::unless_same(call, "the result", &expected, &came)?;
    for lent in [&reply, &trace, &one, &two] {
        lent.compare(call)?;
    }
    Ok((came, trace.product().to_vec(), reply.product().to_vec()))
}

/// What run replies on a trace, from a state just begun, and leaves of the state, and what decide
/// replies.
pub struct Judged {
    pub ran: [u8; LONG_REPLY],
    pub left: Vec<u8>,
    pub decided: [u8; DECIDE_REPLY],
}

impl Judged {
    /// What the reference's row machine says of these periods.
    pub fn meant(image: &Image, periods: &[Period]) -> Judged {
        let mut state = State::fresh(image);
        for period in periods {
            state.step(image, *period);
        }
        let mut left = vec![0; HEAD_BYTES + image.rows.len()];
        state.write(&mut left);
        let ran = long_reply(&Ok(state.clone()));
        if state.decision > 0 {
            // Decide reads no further.
            state.periods = state.decision;
        }
        Judged {
            ran,
            left,
            decided: decide_reply(&Ok(state)),
        }
    }

    /// What the product says of this trace.
    pub fn came(image: &[u8], trace: &[u8]) -> Judged {
        let mut judged = Judged {
            ran: [0xff; LONG_REPLY],
            left: vec![0xff; HEAD_BYTES + rows_of(image)],
            decided: [0xff; DECIDE_REPLY],
        };
        product::begin(image, &mut judged.left, &mut [0; SHORT_REPLY]);
        product::run(image, &mut judged.left, trace, &mut judged.ran);
        product::decide(image, trace, &mut judged.decided);
        judged
    }

    /// That they say the same.
    pub fn compare(&self, call: &str, came: &Judged) -> Result<(), Difference> {
        let same = |what, expected: &[u8], came: &[u8]| {
            Difference::unless_same(call, what, &expected, &came)
        };
        let what = "the reply of a run over the joined periods";
        same(what, &self.ran, &came.ran)?;
        same("the state after that run", &self.left, &came.left)?;
        let what = "the reply of decide on the joined periods";
        same(what, &self.decided, &came.decided)
    }
}

/// The records that are given, or the refusal's number and place.
type Answer = Result<Vec<u8>, (u32, u64)>;

fn meant(refusal: Refusal) -> (u32, u64) {
    (refusal.number, refusal.place)
}

fn came(refusal: monitor::Refusal) -> (u32, u64) {
    (refusal.fault.number(), refusal.place)
}

/// The wrapper joins the logs as the reference does, and reads each of them alone as the reference
/// reads log 1.
fn same_by_wrapper(
    call: &str,
    logs: [&[u8]; 2],
    periods: &Result<Vec<Period>, Refusal>,
) -> Result<(), Difference> {
    let expected = match periods {
        Ok(periods) => Ok(traces::bytes(Form::Wide, periods)),
        Err(refusal) => Err(meant(*refusal)),
    };
    let periods = join_bytes(logs[0], logs[1])
        .map(|periods| monitor::Period::trace(&periods).to_vec())
        .map_err(came);
    same_answers(call, "joined by the wrapper", &expected, &periods)?;
    let names = ["log 1, read by the wrapper", "log 2, read by the wrapper"];
    for (log, name) in logs.into_iter().zip(names) {
        let expected = joined(log, &[]).map(|_| log.to_vec()).map_err(meant);
        let records = LogRecord::read_log(log)
            .map(|records| LogRecord::log(&records).to_vec())
            .map_err(came);
        same_answers(call, name, &expected, &records)?;
    }
    Ok(())
}

/// That two answers are the same. They may be long: of those that differ it is told how many bytes
/// they have, or where the first is that differs.
fn same_answers(
    call: &str,
    what: &str,
    expected: &Answer,
    came: &Answer,
) -> Result<(), Difference> {
    let in_short = |answer: &Answer| answer.as_ref().map(Vec::len).map_err(|refused| *refused);
    let bytes = format!("{what}: bytes, or refusal and place");
    Difference::unless_same(call, &bytes, &in_short(expected), &in_short(came))?;
    match (expected, came) {
        (Ok(expected), Ok(came)) => same_records(call, what, expected, came),
        _ => Ok(()),
    }
}

/// That lists of the same length are the same; otherwise the first bytes that differ are told.
fn same_records(call: &str, what: &str, expected: &[u8], came: &[u8]) -> Result<(), Difference> {
    let pairs = expected.chunks(WIDE).zip(came.chunks(WIDE));
    for (number, (expected, came)) in pairs.enumerate() {
        if expected != came {
            let what = format!("{what}: from byte {} on", WIDE * number);
            return Difference::unless_same(call, &what, &expected, &came);
        }
    }
    Ok(())
}

/// "For two good logs, exchanging them exchanges the parties in each period and nothing else."
fn same_when_exchanged(
    product: Join,
    call: &str,
    [log1, log2]: [&[u8]; 2],
    trace: &[u8],
    reply: &[u8],
) -> Result<(), Difference> {
    let (mut exchanged, mut other_reply) = (vec![0; trace.len()], [0; SHORT_REPLY]);
    product(log2, log1, &mut exchanged, &mut other_reply);
    for record in exchanged.chunks_mut(WIDE) {
        record[2..].rotate_left(4);
    }
    let what = "the reply, with the logs exchanged";
    Difference::unless_same(call, what, &reply, &&other_reply[..])
        .and_then(|()| {
            let what = "the trace, with logs and parties exchanged";
            same_records(call, what, trace, &exchanged)
        })
        .map_err(|difference| difference.between(&["given", "exchanged"]))
}

#[cfg(test)]
mod tests {
    use super::*;

    /// The log of these numbers, with attempts of its own in each record.
    fn log(party: u8, numbers: &[u16]) -> Vec<u8> {
        let record = |number: &u16| {
            let [low, high] = number.to_le_bytes();
            [0x54, 0x4c, low, high, low, high, party, 0]
        };
        numbers.iter().flat_map(record).collect()
    }

    fn differs(product: Join, logs: &[Vec<u8>; 2], lengths: [usize; 2]) -> Option<String> {
        let (random, tally) = (&mut Random::new(1), &mut Tally::default());
        let checked = check_call(product, "join", logs, lengths, random, tally);
        checked.err().map(|difference| difference.to_string())
    }

    /// Good logs, a bad log 1, a log 2 that is out of order, and good ones once more: with room, a
    /// byte too little for the trace, and none for the reply.
    fn calls() -> Vec<([Vec<u8>; 2], [usize; 2])> {
        let good = [log(1, &[1, 3]), log(2, &[2, 4])];
        let bad = [log(1, &[1, 0]), log(2, &[2])];
        let disordered = [log(1, &[1]), log(2, &[2, 2])];
        vec![
            (good.clone(), [43, 16]),
            (bad, [43, 16]),
            (disordered, [43, 16]),
            (good.clone(), [39, 16]),
            (good, [43, 15]),
        ]
    }

    /// In which of these calls a faulty join differs.
    fn faults(product: Join) -> Vec<bool> {
        let check = |(logs, lengths): ([Vec<u8>; 2], [usize; 2])| {
            differs(product, &logs, lengths).is_some()
        };
        calls().into_iter().map(check).collect()
    }

    #[test]
    fn the_product_agrees() {
        assert_eq!(faults(product::join), [false; 5]);
    }

    /// Changes the last byte, if there is one.
    fn flip_last(area: &mut [u8]) {
        if let Some(byte) = area.last_mut() {
            *byte ^= 1;
        }
    }

    #[test]
    fn a_faulty_join_is_a_difference() {
        let [yes, no] = [true, false];
        // The logs in the other order.
        let other_order: Join = |log1, log2, trace, reply| product::join(log2, log1, trace, reply);
        assert_eq!(faults(other_order), [yes, yes, yes, no, no]);
        // The last byte of the trace buffer.
        let past: Join = |log1, log2, trace, reply| {
            let result = product::join(log1, log2, trace, reply);
            flip_last(trace);
            result
        };
        assert_eq!(faults(past), [yes; 5]);
        // The last byte of the reply area.
        let other_reply: Join = |log1, log2, trace, reply| {
            let result = product::join(log1, log2, trace, reply);
            flip_last(reply);
            result
        };
        assert_eq!(faults(other_reply), [yes; 5]);
        // A place in log 2 without the 65,536.
        let place: Join = |log1, log2, trace, reply| {
            let result = product::join(log1, log2, trace, reply);
            reply.iter_mut().skip(10).for_each(|byte| *byte = 0);
            result
        };
        assert_eq!(faults(place), [no, no, yes, no, yes]);
        let result: Join = |log1, log2, trace, reply| product::join(log1, log2, trace, reply) ^ 1;
        assert_eq!(faults(result), [yes; 5]);
    }

    #[test]
    fn another_exchange_is_a_difference() {
        let (one, two) = (log(1, &[1, 3]), log(2, &[2, 3]));
        let (mut trace, mut reply) = (vec![0; 30], [0; SHORT_REPLY]);
        product::join(&one, &two, &mut trace, &mut reply);
        let same = |product: Join, trace: &[u8], reply: &[u8]| {
            same_when_exchanged(product, "join", [&one, &two], trace, reply)
        };
        same(product::join, &trace, &reply).unwrap();
        // Whatever it is given, the logs stay as they are.
        let never: Join = |log1, log2, trace, reply| match log1[6] {
            1 => product::join(log1, log2, trace, reply),
            _ => product::join(log2, log1, trace, reply),
        };
        let difference = same(never, &trace, &reply).unwrap_err().to_string();
        assert!(difference.contains("from byte 0 on"), "{difference}");
        for at in [2, 6, 29] {
            let mut other = trace.clone();
            other[at] ^= 1;
            assert!(same(product::join, &other, &reply).is_err(), "{at}");
        }
        reply[4] ^= 1;
        let difference = same(product::join, &trace, &reply).unwrap_err();
        assert!(difference.to_string().contains("the reply"));
    }

    #[test]
    fn other_periods_of_the_wrapper_are_a_difference() {
        let (one, two) = (log(1, &[1, 3]), log(2, &[2, 3]));
        let same = |periods| same_by_wrapper("join", [&one, &two], &periods);
        same(joined(&one, &two)).unwrap();
        let difference = same(joined(&two, &one)).unwrap_err().to_string();
        assert!(difference.contains("from byte 0 on"), "{difference}");
        let difference = same(joined(&one, &two[..7])).unwrap_err().to_string();
        assert!(difference.contains("bytes, or refusal"), "{difference}");
    }

    #[test]
    fn what_is_joined_is_given() {
        let logs = [log(1, &[1]), log(2, &[2])];
        let (random, tally) = (&mut Random::new(1), &mut Tally::default());
        let joined = check("join", &logs, [25, 16], random, tally);
        let joined = joined.unwrap().expect("it is accepted");
        assert_eq!(joined.trace, traces::bytes(Form::Wide, &joined.periods));
        assert_eq!(joined.periods.len(), 2);
        let refused = check("join", &logs, [19, 16], random, tally);
        assert!(refused.unwrap().is_none());
    }
}
