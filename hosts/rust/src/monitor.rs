//! Monitors: an image and a state, stepped period by period.

use alloc::vec;
use alloc::vec::Vec;

use crate::{answers, Image, Period, Refusal, Reply, RunReply};

/// A contract under way: its image and a state.
///
/// Its state is sound, has 10 + rows bytes, and is written by nobody else, so [`step`](Monitor::step)
/// and [`run`](Monitor::run) are refused only where the count of periods is full (refusal 12). A
/// refused call changes nothing.
#[derive(Clone, Debug, PartialEq, Eq)]
pub struct Monitor {
    image: Image,
    state: Vec<u8>,
}

impl Monitor {
    /// Begins: no period is taken.
    #[must_use]
    pub fn begin(image: &Image) -> Monitor {
        let mut state = vec![0; image.state_bytes()];
        // Proved: begin accepts what compile wrote, and again what it accepted in `from_bytes`.
        answers::begin(image.as_bytes(), &mut state).expect("the image is good");
        Monitor {
            image: image.clone(),
            state,
        }
    }

    /// Goes on from a stored state, as [`state`](Monitor::state) gave it. A run of no records
    /// checks it.
    ///
    /// The check is that the state has 10 + rows bytes and is sound. That it was left by this very
    /// image isn't to be seen from it: store the two together.
    ///
    /// # Errors
    /// Refusal 10, if the state's length is wrong or it isn't sound.
    pub fn resume(image: &Image, state: impl Into<Vec<u8>>) -> Result<Monitor, Refusal> {
        let mut state = state.into();
        answers::run(image.as_bytes(), &mut state, &[])?;
        Ok(Monitor {
            image: image.clone(),
            state,
        })
    }

    /// Takes one period.
    ///
    /// # Errors
    /// Refusal 12, after 4,294,967,295 periods.
    pub fn step(&mut self, period: Period) -> Result<Reply, Refusal> {
        self.step_bytes(&period.to_bytes())
    }

    /// Takes one period record of either form as it stands.
    ///
    /// # Errors
    /// Refusal 11, if it isn't a period record, and 12 as [`step`](Monitor::step).
    pub fn step_bytes(&mut self, record: &[u8]) -> Result<Reply, Refusal> {
        answers::step(self.image.as_bytes(), &mut self.state, record)
    }

    /// Takes any number of periods, all of them or none.
    ///
    /// # Errors
    /// Refusal 12, if more than 4,294,967,295 periods would be taken.
    pub fn run(&mut self, periods: &[Period]) -> Result<RunReply, Refusal> {
        self.run_bytes(Period::trace(periods))
    }

    /// Takes a trace, any number of period records of one form as they stand, all of them or none.
    ///
    /// # Errors
    /// Refusal 11, if it isn't a list of period records of one form, and 12 as
    /// [`run`](Monitor::run).
    pub fn run_bytes(&mut self, trace: &[u8]) -> Result<RunReply, Refusal> {
        answers::run(self.image.as_bytes(), &mut self.state, trace)
    }

    /// The answer after the periods taken so far: that of a run of no records, read from the state
    /// as it stands.
    #[must_use]
    pub fn look(&self) -> Reply {
        answers::shown(&self.state)
    }

    /// How many periods were taken.
    #[must_use]
    pub fn periods(&self) -> u32 {
        answers::periods(&self.state)
    }

    /// The state's bytes, to be stored and resumed.
    #[must_use]
    pub fn state(&self) -> &[u8] {
        &self.state
    }

    /// The image that the monitor runs.
    #[must_use]
    pub fn image(&self) -> &Image {
        &self.image
    }
}
