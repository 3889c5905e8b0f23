//! Why a call, or the reading of a record, was refused.

use core::error::Error;
use core::fmt;

use crate::Party;

/// What a call, or the reading of a record, was refused for: numbers 1 to 12 and 14 to 16 of
/// documents 01 and 02.
///
/// Number 13 is the program `watch`'s alone, for an input that is too long; no call gives it.
#[derive(Clone, Copy, Debug, PartialEq, Eq, Hash)]
#[non_exhaustive]
#[repr(u32)]
pub enum Fault {
    /// The contract is empty, not a multiple of 6 bytes, or over 64 records. Place: 0.
    BadLength = 1,
    /// A contract record's mark is wrong. Place in this and the next three: the record.
    BadMark = 2,
    /// A contract record's kind is unknown.
    UnknownKind = 3,
    /// A contract record's field is out of range, or unused and not 0.
    BadField = 4,
    /// An operator's operands are missing or of the wrong sort.
    BadOperands = 5,
    /// The records leave not just one clause at the end. Place: the record count.
    NotOneClause = 6,
    /// The expression under a `when` or `until` holds the empty list. Place: that record.
    EmptyList = 7,
    /// The image buffer is too short. Place: 0. [`Image::compile`](crate::Image::compile) always
    /// has room; the call in [`calls`](crate::calls) gives it.
    ShortBuffer = 8,
    /// The image is not good. Place: the first bad row, the row count for the end record; 0 for
    /// the length.
    BadImage = 9,
    /// The state's length is wrong, or it is not sound. Place: 0.
    BadState = 10,
    /// A period record's mark is wrong, or the length of what was given; the first record's mark
    /// fixes the form of all. Tested in this order: a single byte (place 0), the first record's
    /// mark (0), the length for its form (0), a later record's mark (its number).
    BadPeriod = 11,
    /// Periods taken would pass 4,294,967,295, or a trace to decide has more records. Place: the
    /// first record too many.
    FullCount = 12,
    /// A log's length is wrong: no multiple of 8 bytes, or over 65,535 records. Place: 0. Or a log
    /// record has a wrong mark or period 0. Place in this and the next: the record in its own log,
    /// with 65,536 added for log 2, which [`Refusal::log_record`] takes apart.
    BadLog = 14,
    /// A log record's period number is not above the one before it.
    OutOfOrder = 15,
    /// The trace buffer is too short. Place: 0. [`join`](crate::join) always has room; the call in
    /// [`calls`](crate::calls) gives it.
    ShortTrace = 16,
}

impl Fault {
    /// The fault of this number, if it is 1 to 12 or 14 to 16.
    #[must_use]
    pub const fn from_number(number: u32) -> Option<Fault> {
        Some(match number {
            1 => Fault::BadLength,
            2 => Fault::BadMark,
            3 => Fault::UnknownKind,
            4 => Fault::BadField,
            5 => Fault::BadOperands,
            6 => Fault::NotOneClause,
            7 => Fault::EmptyList,
            8 => Fault::ShortBuffer,
            9 => Fault::BadImage,
            10 => Fault::BadState,
            11 => Fault::BadPeriod,
            12 => Fault::FullCount,
            14 => Fault::BadLog,
            15 => Fault::OutOfOrder,
            16 => Fault::ShortTrace,
            _ => return None,
        })
    }

    /// 1 to 12 or 14 to 16.
    #[must_use]
    pub const fn number(self) -> u32 {
        self as u32
    }
}

/// A call, or the reading of a record, was refused: nothing that it was given has changed.
///
/// ```
/// use monitor::{Fault, Image};
///
/// let refusal = Image::compile([0x54, 0x43, 11, 0, 0, 0]).unwrap_err();
/// assert_eq!((refusal.fault, refusal.place), (Fault::UnknownKind, 0));
/// assert_eq!(refusal.to_string(), "record 0: unknown kind (refusal 3)");
/// ```
#[derive(Clone, Copy, Debug, PartialEq, Eq, Hash)]
pub struct Refusal {
    /// What was at fault.
    pub fault: Fault,
    /// The first record, or image row, at fault, counted from 0; [`Fault`] says which.
    pub place: u64,
}

/// What is added to the place of a record of log 2.
const LOG_TWO: u64 = 65_536;

impl Refusal {
    /// The log record that refusal 14 or 15 is about: whose log, and the record in it, counted from
    /// 0. `None` for other faults, and for 14 at place 0: that is a bad length of either log, or
    /// record 0 of log 1, and the place doesn't tell which;
    /// [`LogRecord::read_log`](crate::LogRecord::read_log) does, on each log alone; it names log 1,
    /// whichever log it reads.
    ///
    /// ```
    /// use monitor::{join_bytes, Fault, Party};
    ///
    /// let good = [0x54, 0x4c, 1, 0, 1, 0, 0, 0];
    /// let period_0 = [0x54, 0x4c, 0, 0, 1, 0, 0, 0];
    /// let refusal = join_bytes(&good, &[good, period_0].concat()).unwrap_err();
    /// assert_eq!((refusal.fault, refusal.place), (Fault::BadLog, 65_537));
    /// assert_eq!(refusal.log_record(), Some((Party::Two, 1)));
    ///
    /// let bad_length = join_bytes(&good, &good[..7]).unwrap_err();
    /// assert_eq!((bad_length.place, bad_length.log_record()), (0, None));
    /// ```
    #[must_use]
    pub const fn log_record(&self) -> Option<(Party, u64)> {
        match (self.fault, self.place) {
            (Fault::BadLog, 0) => None,
            (Fault::BadLog | Fault::OutOfOrder, place) => Some(in_log(place)),
            _ => None,
        }
    }
}

/// Whose log a record of this place is in, and its number there.
const fn in_log(place: u64) -> (Party, u64) {
    if place < LOG_TWO {
        (Party::One, place)
    } else {
        (Party::Two, place - LOG_TWO)
    }
}

impl fmt::Display for Refusal {
    fn fmt(&self, f: &mut fmt::Formatter<'_>) -> fmt::Result {
        let place = self.place;
        let (party, record) = in_log(place);
        let log = party.number();
        match self.fault {
            Fault::BadLength => f.write_str("the contract is not 1 to 64 records of 6 bytes"),
            Fault::BadMark => write!(f, "record {place}: wrong mark"),
            Fault::UnknownKind => write!(f, "record {place}: unknown kind"),
            Fault::BadField => {
                write!(
                    f,
                    "record {place}: a field is out of range, or unused and not 0"
                )
            }
            Fault::BadOperands => {
                write!(
                    f,
                    "record {place}: operands are missing or of the wrong sort"
                )
            }
            Fault::NotOneClause => write!(f, "the {place} records are not just one clause"),
            Fault::EmptyList => {
                write!(f, "record {place}: the expression holds the empty list")
            }
            Fault::ShortBuffer => f.write_str("the image buffer is too short"),
            Fault::BadImage => {
                write!(f, "image row {place}: bad row, end record or length")
            }
            Fault::BadState => f.write_str("the state is of wrong length, or not sound"),
            Fault::BadPeriod => write!(f, "period record {place}: wrong mark or length"),
            Fault::FullCount => {
                write!(f, "period record {place}: no more periods can be counted")
            }
            Fault::BadLog if place == 0 => f.write_str(
                "a log is of wrong length, or record 0 of log 1 has a wrong mark or period 0",
            ),
            Fault::BadLog => write!(f, "log {log}, record {record}: wrong mark, or period 0"),
            Fault::OutOfOrder => {
                write!(
                    f,
                    "log {log}, record {record}: its number is not above the one before it"
                )
            }
            Fault::ShortTrace => f.write_str("the trace buffer is too short"),
        }?;
        write!(f, " (refusal {})", self.fault.number())
    }
}

impl Error for Refusal {}
