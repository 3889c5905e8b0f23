//! Images: what compile makes of a contract.

use alloc::sync::Arc;
use alloc::vec;
use core::fmt;

use crate::{answers, Contract, DecideReply, Period, Record, Refusal, Window};

/// The bytes of a row, and of the end record.
const ROW_BYTES: usize = 8;
/// The bytes of a state before its row values.
const HEAD_BYTES: usize = 10;

/// A contract's image: rows, then an end record. Every image is good: refusal 9 doesn't apply.
///
/// Clones share the bytes, and so do the monitors that are begun with an image.
#[derive(Clone, PartialEq, Eq, Hash)]
pub struct Image(Arc<[u8]>);

impl Image {
    /// Compiles a contract: a [`Contract`], or its bytes.
    ///
    /// # Errors
    /// Refusals 1 to 7, if it isn't a contract that can be taken.
    pub fn compile(contract: impl AsRef<[u8]>) -> Result<Image, Refusal> {
        let contract = contract.as_ref();
        let mut image = vec![0; buffer_bytes(contract)];
        let rows = answers::compile(contract, &mut image)?;
        // Proved: the buffer has room for these rows and the end record.
        Ok(Image(image[..ROW_BYTES * (rows as usize + 1)].into()))
    }

    /// An image that was stored as [`as_bytes`](Image::as_bytes) gave it. Begin checks it. One that
    /// an earlier archive compiled goes on as it is, also where today's compile gives another.
    ///
    /// # Errors
    /// Refusal 9, if it isn't a good image.
    pub fn from_bytes(bytes: impl AsRef<[u8]>) -> Result<Image, Refusal> {
        let image = Image(bytes.as_ref().into());
        answers::begin(image.as_bytes(), &mut vec![0; image.state_bytes()])?;
        Ok(image)
    }

    /// Decides a list of periods: reads it up to the period that decides, or to its end. It needs
    /// no monitor; it starts as one that has just begun.
    ///
    /// ```
    /// use monitor::{Action, Blame, Clause, Contract, Image, Outcome, Party, Period, Refusal};
    ///
    /// const SAVE: Action = Action::new(0).unwrap();
    ///
    /// fn main() -> Result<(), Refusal> {
    ///     let image = Image::compile(Contract::from(Clause::duty(Party::One, SAVE).repeat()))?;
    ///     let saved = Period::from_actions(&[SAVE], &[SAVE]);
    ///     let refused = Period::from_actions(&[SAVE], &[]);
    ///
    ///     let decided = image.decide(&[saved, refused, saved, saved])?;
    ///     assert_eq!(decided.outcome, Outcome::Violated);
    ///     assert_eq!(decided.blame, Some(Blame::Two));
    ///     assert_eq!(decided.decision.map(|period| period.get()), Some(2));
    ///     assert_eq!(decided.records, 2);
    ///     Ok(())
    /// }
    /// ```
    ///
    /// # Errors
    /// Refusal 12, if there are more than 4,294,967,295 periods.
    pub fn decide(&self, periods: &[Period]) -> Result<DecideReply, Refusal> {
        self.decide_bytes(Period::trace(periods))
    }

    /// Decides a trace, any number of period records of one form as they stand. Records after the
    /// one that decides aren't looked at, so a wrong mark there is no fault.
    ///
    /// # Errors
    /// Refusal 11, if the first record has neither form's mark, the length isn't that of a list of
    /// records of its form (a single byte is a bad length), or a later record that is read has
    /// another mark; 12 as [`decide`](Image::decide).
    pub fn decide_bytes(&self, trace: &[u8]) -> Result<DecideReply, Refusal> {
        answers::decide(self.as_bytes(), trace)
    }

    /// The image's bytes, 8 × (rows + 1).
    #[must_use]
    pub fn as_bytes(&self) -> &[u8] {
        &self.0
    }

    /// How many rows the image has, 1 to 5,952.
    #[must_use]
    pub fn rows(&self) -> usize {
        // Less than a row only in `from_bytes`, before the length is refused.
        (self.0.len() / ROW_BYTES).saturating_sub(1)
    }

    /// How many bytes a state of the image has, 10 + rows.
    #[must_use]
    pub fn state_bytes(&self) -> usize {
        HEAD_BYTES + self.rows()
    }
}

/// The bytes of an image buffer that takes the contract: 8 × (32 × records + 65 + 4 × the sum of
/// all windows). Of other bytes no more is counted than a contract may have, since they are refused
/// before the buffer is looked at.
fn buffer_bytes(contract: &[u8]) -> usize {
    let records = contract
        .chunks_exact(Record::BYTES)
        .take(Contract::MAX_RECORDS);
    let rows = records.map(|record| {
        // The last byte is 0 in every kind but a deadline.
        let window = record[Record::BYTES - 1].min(Window::MAX);
        32 + 4 * usize::from(window)
    });
    ROW_BYTES * (rows.sum::<usize>() + 65)
}

impl fmt::Debug for Image {
    fn fmt(&self, f: &mut fmt::Formatter<'_>) -> fmt::Result {
        f.debug_struct("Image")
            .field("rows", &self.rows())
            .finish_non_exhaustive()
    }
}
