//! Periods: what each party tries in one.

use alloc::vec::Vec;
use core::fmt;
use core::slice;

use crate::{Action, Fault, Party, Refusal};

/// The first byte of each form's mark, and the second of the narrow and of the wide one.
const MARK: u8 = 0x54;
const NARROW: u8 = 0x50;
const WIDE: u8 = 0x51;
/// The bytes of a narrow record.
const NARROW_BYTES: usize = 6;

/// The attempts of both parties in one period.
///
/// A period is written as a wide record, and read from a record of either form:
///
/// | form | bytes | mark | attempts of each party | actions |
/// |---|---|---|---|---|
/// | narrow | 6 | `54 50` | 2 bytes | 0 to 15; no other is tried |
/// | wide | 10 | `54 51` | 4 bytes | 0 to 31 |
///
/// ```
/// use monitor::{Action, Party, Period};
///
/// const SAVE: Action = Action::new(0).unwrap();
/// const LOAD: Action = Action::new(1).unwrap();
///
/// let mut period = Period::default();
/// period.attempt(Party::One, SAVE);
/// period.attempt(Party::One, LOAD);
/// period.attempt(Party::Two, SAVE);
/// assert_eq!(period, Period::from_actions(&[SAVE, LOAD], &[SAVE]));
/// assert_eq!(period, Period::from_masks(0b11, 0b01));
/// assert!(period.succeeds(SAVE) && !period.succeeds(LOAD));
/// ```
// It is kept as its wide record, so that a list of periods is a trace as it stands.
#[derive(Clone, Copy, PartialEq, Eq, Hash)]
#[repr(transparent)]
pub struct Period([u8; Period::BYTES]);

impl Period {
    /// The bytes of the record that a period is written as, the wide one.
    pub const BYTES: usize = 10;

    /// The period of these masks, party 1's first: bit a is set when the party tries action a.
    #[must_use]
    pub const fn from_masks(one: u32, two: u32) -> Period {
        let [a, b, c, d] = one.to_le_bytes();
        let [e, f, g, h] = two.to_le_bytes();
        Period([MARK, WIDE, a, b, c, d, e, f, g, h])
    }

    /// The period in which party 1 tries the actions of the first list, and party 2 those of the
    /// second.
    #[must_use]
    pub fn from_actions(one: &[Action], two: &[Action]) -> Period {
        let mask = |actions: &[Action]| actions.iter().fold(0, |mask, a| mask | a.bit());
        Period::from_masks(mask(one), mask(two))
    }

    /// The period of a record of either form, which was stored or comes from elsewhere.
    ///
    /// ```
    /// use monitor::Period;
    ///
    /// let narrow = [0x54, 0x50, 0x03, 0x00, 0x00, 0x80];
    /// let wide = [0x54, 0x51, 0x03, 0x00, 0x00, 0x00, 0x00, 0x80, 0x00, 0x00];
    /// let period = Period::from_masks(0x0003, 0x8000);
    /// assert_eq!(Period::from_bytes(narrow), Ok(period));
    /// assert_eq!(Period::from_bytes(wide), Ok(period));
    /// assert_eq!(period.to_bytes(), wide);
    /// ```
    ///
    /// # Errors
    /// Refusal 11 at place 0, if it isn't just one period record.
    pub fn from_bytes(record: impl AsRef<[u8]>) -> Result<Period, Refusal> {
        let (one, two) = match *record.as_ref() {
            [MARK, NARROW, a, b, c, d] => ([a, b, 0, 0], [c, d, 0, 0]),
            [MARK, WIDE, a, b, c, d, e, f, g, h] => ([a, b, c, d], [e, f, g, h]),
            _ => return Err(bad_period(0)),
        };
        Ok(Period::from_masks(
            u32::from_le_bytes(one),
            u32::from_le_bytes(two),
        ))
    }

    /// The periods of a stored trace of either form.
    ///
    /// ```
    /// use monitor::Period;
    ///
    /// let stored = [0x54, 0x50, 1, 0, 1, 0, 0x54, 0x50, 0, 0, 2, 0];
    /// let periods = [Period::from_masks(1, 1), Period::from_masks(0, 2)];
    /// assert_eq!(Period::read_trace(stored), Ok(periods.to_vec()));
    /// assert_eq!(Period::read_trace(Period::trace(&periods)), Ok(periods.to_vec()));
    /// ```
    ///
    /// # Errors
    /// Refusal 11, if it isn't a list of period records of one form; the place is that of
    /// [`Fault::BadPeriod`].
    pub fn read_trace(trace: impl AsRef<[u8]>) -> Result<Vec<Period>, Refusal> {
        let trace = trace.as_ref();
        let record_bytes = match trace {
            [] => return Ok(Vec::new()),
            [MARK, NARROW, ..] => NARROW_BYTES,
            [MARK, WIDE, ..] => Period::BYTES,
            _ => return Err(bad_period(0)),
        };
        if trace.len() % record_bytes != 0 {
            return Err(bad_period(0));
        }
        let records = trace.chunks_exact(record_bytes);
        (0..)
            .zip(records)
            .map(|(number, record)| Period::from_bytes(record).map_err(|_| bad_period(number)))
            .collect()
    }

    /// Adds an attempt.
    pub fn attempt(&mut self, party: Party, action: Action) {
        let (one, two) = (self.mask(Party::One), self.mask(Party::Two));
        *self = match party {
            Party::One => Period::from_masks(one | action.bit(), two),
            Party::Two => Period::from_masks(one, two | action.bit()),
        };
    }

    /// The mask of a party's attempts.
    #[must_use]
    pub const fn mask(self, party: Party) -> u32 {
        let [_, _, a, b, c, d, e, f, g, h] = self.0;
        u32::from_le_bytes(match party {
            Party::One => [a, b, c, d],
            Party::Two => [e, f, g, h],
        })
    }

    /// Whether the party tries the action.
    #[must_use]
    pub const fn tries(self, party: Party, action: Action) -> bool {
        self.mask(party) & action.bit() != 0
    }

    /// Whether both parties try the action.
    #[must_use]
    pub const fn succeeds(self, action: Action) -> bool {
        self.tries(Party::One, action) && self.tries(Party::Two, action)
    }

    /// The period as a record of a trace, a wide one.
    #[must_use]
    pub const fn to_bytes(self) -> [u8; Period::BYTES] {
        self.0
    }

    /// The periods' records one after the other, as they lie in memory: a wide trace.
    ///
    /// ```
    /// use monitor::Period;
    ///
    /// let periods = [Period::from_masks(1, 1), Period::from_masks(0, 2)];
    /// let trace = [0x54, 0x51, 1, 0, 0, 0, 1, 0, 0, 0, 0x54, 0x51, 0, 0, 0, 0, 2, 0, 0, 0];
    /// assert_eq!(Period::trace(&periods), trace);
    /// ```
    #[must_use]
    #[allow(unsafe_code)]
    pub fn trace(periods: &[Period]) -> &[u8] {
        // SAFETY: a period is just its record's bytes (`repr(transparent)`), so the list is that
        // many bytes in a row, and they are borrowed for as long as the list.
        unsafe { slice::from_raw_parts(periods.as_ptr().cast(), size_of_val(periods)) }
    }

    /// The same bytes, to be written as wide records.
    #[allow(unsafe_code)]
    pub(crate) fn trace_mut(periods: &mut [Period]) -> &mut [u8] {
        // SAFETY: as in `trace`, and any bytes are a period as far as memory goes.
        unsafe { slice::from_raw_parts_mut(periods.as_mut_ptr().cast(), size_of_val(periods)) }
    }
}

/// Refusal 11 at that record.
const fn bad_period(place: u64) -> Refusal {
    Refusal {
        fault: Fault::BadPeriod,
        place,
    }
}

impl Default for Period {
    /// The period in which nobody tries anything.
    fn default() -> Period {
        Period::from_masks(0, 0)
    }
}

impl fmt::Debug for Period {
    fn fmt(&self, f: &mut fmt::Formatter<'_>) -> fmt::Result {
        f.debug_struct("Period")
            .field("one", &self.mask(Party::One))
            .field("two", &self.mask(Party::Two))
            .finish()
    }
}
