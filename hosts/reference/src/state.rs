//! States and the row machine, with refusal 10.

use crate::clause::Decision;
use crate::image::{Image, Row};
use crate::records::{four_bytes, refused, Period, Refusal};

/// "State, 10 + rows bytes."
pub const HEAD_BYTES: usize = 10;

/// "Outcome (0 undecided, 1 satisfied, 2 violated); blame; periods taken; decision period (0 for
/// none); each row's last value as 0 or 1."
#[derive(Clone, Debug, PartialEq, Eq)]
pub struct State {
    pub outcome: u8,
    pub blame: u8,
    pub periods: u32,
    pub decision: u32,
    pub values: Vec<u8>,
}

impl State {
    /// A "fresh state": all is 0.
    pub fn fresh(image: &Image) -> State {
        State {
            outcome: 0,
            blame: 0,
            periods: 0,
            decision: 0,
            values: vec![0; image.rows.len()],
        }
    }

    /// The state of these bytes, or refusal 10: "state length wrong, or (step, run) state not
    /// sound; 0".
    pub fn read(bytes: &[u8], image: &Image) -> Result<State, Refusal> {
        check_length(bytes, image)?;
        let state = State {
            outcome: bytes[0],
            blame: bytes[1],
            periods: four_bytes(bytes, 2),
            decision: four_bytes(bytes, 6),
            values: bytes[HEAD_BYTES..].to_vec(),
        };
        if !state.is_sound() {
            return refused(10, 0);
        }
        Ok(state)
    }

    /// Writes the state over bytes of its length.
    pub fn write(&self, bytes: &mut [u8]) {
        bytes[0] = self.outcome;
        bytes[1] = self.blame;
        bytes[2..6].copy_from_slice(&self.periods.to_le_bytes());
        bytes[6..10].copy_from_slice(&self.decision.to_le_bytes());
        bytes[HEAD_BYTES..].copy_from_slice(&self.values);
    }

    /// "A state is sound when outcome is at most 2, row values are 0 or 1, blame is 1 to 3 exactly
    /// for outcome 2 and else 0, decision is 0 exactly for outcome 0 and never above periods
    /// taken, and all is 0 when none are taken."
    pub fn is_sound(&self) -> bool {
        let blame_fits = if self.outcome == 2 {
            (1..=3).contains(&self.blame)
        } else {
            self.blame == 0
        };
        let all_zero = self.outcome == 0
            && self.blame == 0
            && self.decision == 0
            && self.values.iter().all(|value| *value == 0);
        self.outcome <= 2
            && self.values.iter().all(|value| *value <= 1)
            && blame_fits
            && (self.decision == 0) == (self.outcome == 0)
            && self.decision <= self.periods
            && (self.periods > 0 || all_zero)
    }

    /// "Each period that finds outcome 0 computes the rows in order, and decides if S, V1 or V2 is
    /// then true. After the decision a step raises only periods taken." The count isn't full.
    pub fn step(&mut self, image: &Image, period: Period) {
        let is_first = self.periods == 0;
        self.periods += 1;
        if self.outcome != 0 {
            return;
        }
        let values = compute(image, &self.values, period, is_first);
        let [satisfied, one, two] =
            [image.satisfied, image.violated_one, image.violated_two].map(|row| values[row] == 1);
        if one || two {
            self.outcome = 2;
            self.blame = u8::from(one) + 2 * u8::from(two);
            self.decision = self.periods;
        } else if satisfied {
            self.outcome = 1;
            self.decision = self.periods;
        }
        self.values = values;
    }

    /// The decision that the state tells of.
    pub fn decided(&self) -> Decision {
        let period = self.decision as usize;
        match self.outcome {
            0 => Decision::Undecided,
            1 => Decision::Satisfied { period },
            _ => Decision::Violated {
                period,
                blame: self.blame,
            },
        }
    }
}

/// "State length wrong."
pub fn check_length(bytes: &[u8], image: &Image) -> Result<(), Refusal> {
    if bytes.len() != HEAD_BYTES + image.rows.len() {
        return refused(10, 0);
    }
    Ok(())
}

/// The row values of one period, "with the state's row values as those of the period before".
fn compute(image: &Image, before: &[u8], period: Period, is_first: bool) -> Vec<u8> {
    let mut values: Vec<u8> = Vec::with_capacity(image.rows.len());
    for row in &image.rows {
        let value = match *row {
            Row::False => false,
            Row::First => is_first,
            Row::Tries(party, action) => period.tries(party, action),
            Row::Not(x) => values[x] == 0,
            Row::And(x, y) => values[x] == 1 && values[y] == 1,
            Row::Or(x, y) => values[x] == 1 || values[y] == 1,
            Row::Before(x) => !is_first && before[x] == 1,
        };
        values.push(u8::from(value));
    }
    values
}
