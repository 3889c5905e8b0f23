//! Traces, and an image by hand.

use crate::plain::attempts;
use crate::product::ROW;
use monitor::Period;
use reference::{Clause, Decision, Form, Monitor};

/// An image and a narrow trace.
pub struct Input {
    pub name: String,
    pub image: Vec<u8>,
    pub trace: Vec<u8>,
}

/// Random numbers (xorshift), the same in each run.
pub struct Random(u64);

impl Random {
    pub fn new() -> Random {
        Random(2_463_534_242)
    }

    fn next(&mut self) -> u64 {
        self.0 ^= self.0 << 13;
        self.0 ^= self.0 >> 7;
        self.0 ^= self.0 << 17;
        self.0
    }

    pub fn below(&mut self, limit: usize) -> usize {
        ((self.next() >> 16) % limit as u64) as usize
    }

    /// Attempts at lower actions.
    pub fn mask(&mut self) -> u32 {
        u32::from((self.next() >> 24) as u16)
    }

    /// Each bit is set in one of eight draws.
    fn few_bits(&mut self) -> u32 {
        self.mask() & self.mask() & self.mask()
    }
}

fn masks(period: Period) -> (u32, u32) {
    (
        period.mask(monitor::Party::One),
        period.mask(monitor::Party::Two),
    )
}

/// The narrow records of these periods, in which nobody tries an upper action.
pub fn narrow(periods: &[Period]) -> Vec<u8> {
    let record = |period: &Period| {
        let (one, two) = masks(*period);
        reference::Period { one, two }.record(Form::Narrow)
    };
    periods.iter().flat_map(record).collect()
}

/// The wide records with the attempts of these narrow ones.
pub fn wide(trace: &[u8]) -> Vec<u8> {
    let periods = Period::read_trace(trace).expect("a trace");
    Period::trace(&periods).to_vec()
}

/// The reference's monitor takes a narrow record.
pub fn take(monitor: &mut Monitor, record: &[u8]) {
    let [_, one, two] = attempts(record);
    monitor.step(one.into(), two.into());
}

/// Any periods.
pub fn any(random: &mut Random, periods: usize) -> Vec<u8> {
    let drawn: Vec<Period> = (0..periods)
        .map(|_| Period::from_masks(random.mask(), random.mask()))
        .collect();
    narrow(&drawn)
}

/// Periods that leave the clause open, near one that always does.
pub fn open(random: &mut Random, clause: &Clause, kept: Period, periods: usize) -> Vec<u8> {
    let mut monitor = Monitor::new(clause);
    let mut drawn = Vec::with_capacity(periods);
    for _ in 0..periods {
        let (period, next) = open_period(random, &monitor, kept);
        drawn.push(period);
        monitor = next;
    }
    narrow(&drawn)
}

/// Periods that leave a repaired duty open, two without any attempt, which violate it, then any.
pub fn violated(random: &mut Random, open: Vec<u8>, periods: usize) -> Vec<u8> {
    let mut trace = open;
    trace.extend(narrow(&[Period::default(); 2]));
    trace.extend(any(random, periods));
    trace
}

/// A period that leaves the monitor open, and the monitor after it.
fn open_period(random: &mut Random, monitor: &Monitor, kept: Period) -> (Period, Monitor) {
    let (one, two) = masks(kept);
    let mut draws = (0..4).map(|_| {
        let (one, two) = (one ^ random.few_bits(), two ^ random.few_bits());
        Period::from_masks(one, two)
    });
    let after = |period: Period| {
        let mut next = monitor.clone();
        let (one, two) = masks(period);
        next.step(one, two);
        (next.decision() == Decision::Undecided).then_some((period, next))
    };
    let found = draws.find_map(after);
    found
        .or_else(|| after(kept))
        .expect("the kept period leaves the clause open")
}

/// A good image of so many rows, at least 3, that never decides: S, V1 and V2 are row 0, which is
/// false. Of 100 rows 38 are `and`, 22 `or`, 16 `not`, 12 `the period before` (of a later row at
/// times), 12 attempts, about as in compiled contracts.
pub fn mixed_image(random: &mut Random, rows: usize) -> Vec<u8> {
    let mut image = Vec::with_capacity(ROW * (rows + 1));
    push_row(&mut image, 0, 0, 0);
    push_row(&mut image, 1, 0, 0);
    push_row(&mut image, 3, 1, 0);
    for k in 3..rows {
        let (kind, x, y) = match random.below(100) {
            0..=37 => (4, lower(random, k), lower(random, k)),
            38..=59 => (5, lower(random, k), lower(random, k)),
            60..=75 => (3, lower(random, k), 0),
            76..=87 => (6, random.below(rows), 0),
            _ => (2, 1 + random.below(2), random.below(16)),
        };
        push_row(&mut image, kind, x, y);
    }
    push_end(&mut image);
    image
}

/// The smallest image: one row, which is true in period 1, and S, V1 and V2 are that row.
pub fn smallest_image() -> Vec<u8> {
    let mut image = Vec::with_capacity(2 * ROW);
    push_row(&mut image, 1, 0, 0);
    push_end(&mut image);
    image
}

fn push_row(image: &mut Vec<u8>, kind: u8, x: usize, y: usize) {
    image.extend([0x54, 0x52, kind, 0]);
    image.extend((x as u16).to_le_bytes());
    image.extend((y as u16).to_le_bytes());
}

/// S, V1 and V2 are row 0.
fn push_end(image: &mut Vec<u8>) {
    image.extend([0x54, 0x45, 0, 0, 0, 0, 0, 0]);
}

/// A lower row: mostly a near one, sometimes any.
fn lower(random: &mut Random, k: usize) -> usize {
    if random.below(4) != 0 {
        k - 1 - random.below(k.min(12))
    } else {
        random.below(k)
    }
}

/// The image with S, V1 and V2 set to a false row, so that it never decides.
pub fn without_decision(image: Vec<u8>) -> Vec<u8> {
    deciding_by(image, 0)
}

/// The image with S, V1 and V2 set to a row that is true in period 1, which so decides.
pub fn decided_at_once(image: Vec<u8>) -> Vec<u8> {
    deciding_by(image, 1)
}

/// The image with S, V1 and V2 set to its first row of a kind.
fn deciding_by(mut image: Vec<u8>, kind: u8) -> Vec<u8> {
    let row = image
        .chunks_exact(ROW)
        .position(|row| row[..3] == [0x54, 0x52, kind])
        .expect("the image has a row of the kind");
    let end = image.len() - ROW;
    for field in image[end + 2..].chunks_exact_mut(2) {
        field.copy_from_slice(&(row as u16).to_le_bytes());
    }
    image
}
