//! Logs: what one party tries in the periods that it wrote down, and the join of two of them.

use alloc::vec;
use alloc::vec::Vec;
use core::fmt;
use core::num::NonZeroU16;
use core::slice;

use crate::{answers, Action, Fault, Period, Refusal};

/// The mark of a log record.
const MARK: [u8; 2] = [0x54, 0x4c];

/// One party's attempts in one period, a record of its log.
///
/// A log is a list of such records whose period numbers rise, at most 65,535 of them. In a period
/// that it lacks, the party tries nothing. A record is 8 bytes: the mark `54 4C`, the period's
/// number (2 bytes, from 1) and the attempts (4 bytes).
///
/// ```
/// use core::num::NonZeroU16;
/// use monitor::{Action, LogRecord};
///
/// const SAVE: Action = Action::new(0).unwrap();
/// const LOAD: Action = Action::new(1).unwrap();
/// const THIRD: NonZeroU16 = NonZeroU16::new(3).unwrap();
///
/// let mut record = LogRecord::from_actions(THIRD, &[SAVE]);
/// record.attempt(LOAD);
/// assert_eq!(record, LogRecord::from_mask(THIRD, 0b11));
/// assert_eq!((record.period(), record.mask()), (THIRD, 0b11));
/// assert_eq!(record.to_bytes(), [0x54, 0x4c, 3, 0, 3, 0, 0, 0]);
/// ```
// It is kept as its bytes, so that a list of records is a log as it stands.
#[derive(Clone, Copy, PartialEq, Eq, Hash)]
#[repr(transparent)]
pub struct LogRecord([u8; LogRecord::BYTES]);

impl LogRecord {
    /// The bytes of a log record.
    pub const BYTES: usize = 8;
    /// The most records of a log.
    pub const MAX_RECORDS: usize = 65_535;

    /// The record of the period of this number, with this mask: bit a is set when the party tries
    /// action a.
    #[must_use]
    pub const fn from_mask(period: NonZeroU16, attempts: u32) -> LogRecord {
        let [low, high] = period.get().to_le_bytes();
        let [a, b, c, d] = attempts.to_le_bytes();
        LogRecord([MARK[0], MARK[1], low, high, a, b, c, d])
    }

    /// The record of the period of this number, in which the party tries these actions.
    #[must_use]
    pub fn from_actions(period: NonZeroU16, actions: &[Action]) -> LogRecord {
        let mut record = LogRecord::from_mask(period, 0);
        actions.iter().for_each(|action| record.attempt(*action));
        record
    }

    /// The record of these bytes, which were stored or come from elsewhere.
    ///
    /// # Errors
    /// Refusal 14 at place 0, if it isn't just one log record.
    pub fn from_bytes(record: impl AsRef<[u8]>) -> Result<LogRecord, Refusal> {
        let record: [u8; LogRecord::BYTES] = record.as_ref().try_into().map_err(|_| bad_log(0))?;
        if record[..2] != MARK || record[2..4] == [0, 0] {
            return Err(bad_log(0));
        }
        Ok(LogRecord(record))
    }

    /// The records of a stored log.
    ///
    /// ```
    /// use monitor::{Fault, LogRecord};
    ///
    /// let stored = [0x54, 0x4c, 1, 0, 1, 0, 0, 0, 0x54, 0x4c, 4, 0, 2, 0, 0, 0];
    /// let records = LogRecord::read_log(stored).unwrap();
    /// assert_eq!(records.len(), 2);
    /// assert_eq!((records[1].period().get(), records[1].mask()), (4, 2));
    /// assert_eq!(LogRecord::log(&records), stored);
    ///
    /// let refusal = LogRecord::read_log(&stored[..15]).unwrap_err();
    /// assert_eq!((refusal.fault, refusal.place), (Fault::BadLog, 0));
    /// ```
    ///
    /// # Errors
    /// Refusals 14 and 15, if it isn't a good log, as [`join`] gives them for log 1.
    pub fn read_log(log: impl AsRef<[u8]>) -> Result<Vec<LogRecord>, Refusal> {
        let records = log.as_ref().chunks_exact(LogRecord::BYTES);
        if !records.remainder().is_empty() || records.len() > LogRecord::MAX_RECORDS {
            return Err(bad_log(0));
        }
        let records: Vec<LogRecord> = (0..)
            .zip(records)
            .map(|(number, record)| LogRecord::from_bytes(record).map_err(|_| bad_log(number)))
            .collect::<Result<_, _>>()?;
        let mut pairs = (1..).zip(records.windows(2));
        match pairs.find(|(_, pair)| pair[1].period() <= pair[0].period()) {
            Some((place, _)) => Err(Refusal {
                fault: Fault::OutOfOrder,
                place,
            }),
            None => Ok(records),
        }
    }

    /// Adds an attempt.
    pub fn attempt(&mut self, action: Action) {
        *self = LogRecord::from_mask(self.period(), self.mask() | action.bit());
    }

    /// The period's number, counted from 1.
    #[must_use]
    pub const fn period(self) -> NonZeroU16 {
        let number = u16::from_le_bytes([self.0[2], self.0[3]]);
        NonZeroU16::new(number).expect("a period's number is from 1")
    }

    /// The mask of the party's attempts.
    #[must_use]
    pub const fn mask(self) -> u32 {
        let [_, _, _, _, a, b, c, d] = self.0;
        u32::from_le_bytes([a, b, c, d])
    }

    /// Whether the party tries the action.
    #[must_use]
    pub const fn tries(self, action: Action) -> bool {
        self.mask() & action.bit() != 0
    }

    /// The record's bytes.
    #[must_use]
    pub const fn to_bytes(self) -> [u8; LogRecord::BYTES] {
        self.0
    }

    /// The records one after the other, as they lie in memory: a log, to be stored.
    #[must_use]
    #[allow(unsafe_code)]
    pub fn log(records: &[LogRecord]) -> &[u8] {
        // SAFETY: a record is just its bytes (`repr(transparent)`), so the list is that many bytes
        // in a row, and they are borrowed for as long as the list.
        unsafe { slice::from_raw_parts(records.as_ptr().cast(), size_of_val(records)) }
    }
}

/// Refusal 14 at that record.
const fn bad_log(place: u64) -> Refusal {
    Refusal {
        fault: Fault::BadLog,
        place,
    }
}

impl fmt::Debug for LogRecord {
    fn fmt(&self, f: &mut fmt::Formatter<'_>) -> fmt::Result {
        f.debug_struct("LogRecord")
            .field("period", &self.period().get())
            .field("attempts", &self.mask())
            .finish()
    }
}

/// Joins the two parties' logs on the period number: the periods from 1 to the greater of the two
/// last numbers. A party tries nothing in a period that its log lacks.
///
/// ```
/// use core::num::NonZeroU16;
/// use monitor::{join, LogRecord, Period, Refusal};
///
/// fn main() -> Result<(), Refusal> {
///     let record = |period, attempts| {
///         LogRecord::from_mask(NonZeroU16::new(period).unwrap(), attempts)
///     };
///     let plugin = [record(1, 0b01), record(3, 0b10)];
///     let host = [record(1, 0b01), record(2, 0b11)];
///     let periods = [(0b01, 0b01), (0b00, 0b11), (0b10, 0b00)];
///     let periods = periods.map(|(one, two)| Period::from_masks(one, two));
///     assert_eq!(join(&plugin, &host)?, periods);
///     Ok(())
/// }
/// ```
///
/// # Errors
/// Refusal 14, if a log has more than 65,535 records, and 15, if a number isn't above the one
/// before it; of 15 [`Refusal::log_record`] tells in which log.
pub fn join(log1: &[LogRecord], log2: &[LogRecord]) -> Result<Vec<Period>, Refusal> {
    join_bytes(LogRecord::log(log1), LogRecord::log(log2))
}

/// Joins two stored logs, the bytes of their records as they stand.
///
/// # Errors
/// Refusal 14, if one isn't a list of at most 65,535 log records, and 15 as [`join`]. All of 14 is
/// tested before 15, and log 1 before log 2 within each.
pub fn join_bytes(log1: &[u8], log2: &[u8]) -> Result<Vec<Period>, Refusal> {
    let last = last_number(log1).max(last_number(log2));
    let mut periods = vec![Period::default(); last.into()];
    let records = answers::join(log1, log2, Period::trace_mut(&mut periods))?;
    // Proved: these are all, since the trace reaches to the greater of the two last numbers.
    periods.truncate(records as usize);
    Ok(periods)
}

/// The number of a log's last record, 0 if there is none. Any number will do for other bytes, since
/// they are refused before the trace buffer is looked at.
fn last_number(log: &[u8]) -> u16 {
    match *log {
        [.., low, high, _, _, _, _] => u16::from_le_bytes([low, high]),
        _ => 0,
    }
}
