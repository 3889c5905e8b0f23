//! The six calls on input that they accept.

use monitor::calls;

/// Bytes of a row, and of the end record.
pub const ROW: usize = 8;
/// Bytes of a state before its row values.
pub const HEAD: usize = 10;
/// Bytes of a narrow period record.
pub const PERIOD: usize = 6;
/// The most rows of an image.
pub const MAX_ROWS: usize = 32 * 64 + 64 + 4 * 15 * 64;
/// Bytes of an image buffer that is never too short.
pub const LONGEST_IMAGE: usize = ROW * (MAX_ROWS + 1);

/// Verdict, blame and decision period of an accepted reply.
#[derive(Clone, Copy, Debug, Default, PartialEq, Eq)]
pub struct Answer {
    pub verdict: u32,
    pub blame: u32,
    pub decision: u32,
}

/// Outcome, blame, decision period and records read of decide's accepted reply.
#[derive(Clone, Copy, Debug, Default, PartialEq, Eq)]
pub struct Decided {
    pub outcome: u32,
    pub blame: u32,
    pub decision: u32,
    pub records: u32,
}

/// A four-byte field of a reply or a state.
pub fn field(bytes: &[u8], at: usize) -> u32 {
    u32::from_le_bytes(bytes[at..at + 4].try_into().expect("four bytes"))
}

/// Writes the contract's image; its number of rows.
pub fn compile(contract: &[u8], image: &mut [u8]) -> usize {
    let mut reply = [0; 16];
    let result = calls::compile(contract, image, &mut reply);
    assert_eq!((result, field(&reply, 0)), (1, 0), "compile refuses");
    field(&reply, 4) as usize
}

/// The contract's image.
pub fn image_of(contract: &[u8]) -> Vec<u8> {
    let mut image = vec![0; LONGEST_IMAGE];
    let rows = compile(contract, &mut image);
    image.truncate(ROW * (rows + 1));
    image
}

/// The number of rows of an image.
pub fn rows_of(image: &[u8]) -> usize {
    image.len() / ROW - 1
}

/// The state before the first period.
pub fn begin(image: &[u8]) -> Vec<u8> {
    let mut state = vec![0xff; HEAD + rows_of(image)];
    let mut reply = [0; 16];
    let result = calls::begin(image, &mut state, &mut reply);
    assert_eq!((result, field(&reply, 0)), (1, 0), "begin refuses");
    state
}

fn answer(result: u32, reply: &[u8; 24]) -> Answer {
    assert_eq!((result, field(reply, 0)), (1, 0), "step or run refuses");
    Answer {
        verdict: field(reply, 4),
        blame: field(reply, 16),
        decision: field(reply, 20),
    }
}

/// One call of step.
pub fn step(image: &[u8], state: &mut [u8], period: &[u8]) -> Answer {
    let mut reply = [0; 24];
    let result = calls::step(image, state, period, &mut reply);
    answer(result, &reply)
}

/// One call of run.
pub fn run(image: &[u8], state: &mut [u8], trace: &[u8]) -> Answer {
    let mut reply = [0; 24];
    let result = calls::run(image, state, trace, &mut reply);
    answer(result, &reply)
}

/// One call of decide.
pub fn decide(image: &[u8], trace: &[u8]) -> Decided {
    let mut reply = [0; 32];
    let result = calls::decide(image, trace, &mut reply);
    assert_eq!((result, field(&reply, 0)), (1, 0), "decide refuses");
    Decided {
        outcome: field(&reply, 4),
        blame: field(&reply, 16),
        decision: field(&reply, 20),
        records: field(&reply, 24),
    }
}

/// One call of join; the trace's number of records.
pub fn join(log1: &[u8], log2: &[u8], trace: &mut [u8]) -> usize {
    let mut reply = [0; 16];
    let result = calls::join(log1, log2, trace, &mut reply);
    assert_eq!((result, field(&reply, 0)), (1, 0), "join refuses");
    field(&reply, 4) as usize
}

/// What decide has to give on a trace that leaves a begun state like this.
pub fn decided_by(state: &[u8]) -> Decided {
    let (taken, decision) = (field(state, 2), field(state, 6));
    Decided {
        outcome: state[0].into(),
        blame: state[1].into(),
        decision,
        records: if decision == 0 { taken } else { decision },
    }
}
