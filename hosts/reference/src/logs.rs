//! Joining the two parties' logs into one trace, with refusals 14 to 16.
//!
//! A good log tells by the number of a period what its party tries in it, and the trace asks both
//! logs for one number after the other.

use crate::calls::{short_reply, SHORT_REPLY};
use crate::records::{four_bytes, refused, two_bytes, Form, Party, Period, Refusal, LOG_MARK};
use std::collections::BTreeMap;

/// "A log record is 8 bytes."
pub const LOG_RECORD_BYTES: usize = 8;
/// A log of "over 65,535 records" has a bad length.
pub const MAX_LOG_RECORDS: usize = 65535;
/// The place of log 2's first record: "65,536 added for log 2".
pub const LOG_TWO_PLACE: usize = 65536;

/// A log record: "`54 4C`, a two-byte period number from 1, four bytes of attempts".
#[derive(Clone, Copy, Debug, PartialEq, Eq)]
pub struct LogRecord {
    pub period: u16,
    pub attempts: u32,
}

impl LogRecord {
    /// The record of 8 bytes; none for "a wrong mark or period 0".
    pub fn of_record(record: &[u8]) -> Option<LogRecord> {
        let period = two_bytes(record, 2);
        if record[..2] != LOG_MARK || period == 0 {
            return None;
        }
        Some(LogRecord {
            period,
            attempts: four_bytes(record, 4),
        })
    }

    /// Its bytes.
    pub fn record(self) -> Vec<u8> {
        let mut record = LOG_MARK.to_vec();
        record.extend(self.period.to_le_bytes());
        record.extend(self.attempts.to_le_bytes());
        record
    }
}

/// A good log as a function: from the number of each period that it has to the attempts in it.
#[derive(Clone, Debug, PartialEq, Eq)]
struct Log(BTreeMap<u16, u32>);

impl Log {
    /// The log of records whose numbers rise.
    fn new(records: &[LogRecord]) -> Log {
        let numbered = records
            .iter()
            .map(|record| (record.period, record.attempts));
        Log(numbered.collect())
    }

    /// "A party tries nothing in a period that its log lacks."
    fn attempts(&self, period: u16) -> u32 {
        match self.0.get(&period) {
            Some(attempts) => *attempts,
            None => 0,
        }
    }

    /// Its last number, 0 for an empty log. Since the numbers rise, it is the greatest.
    fn last_number(&self) -> u16 {
        match self.0.last_key_value() {
            Some((period, _)) => *period,
            None => 0,
        }
    }
}

/// "The place is the record in its own log, with 65,536 added for log 2."
fn place(party: Party, number: usize) -> usize {
    match party {
        Party::One => number,
        Party::Two => LOG_TWO_PLACE + number,
    }
}

/// The length of a log, or refusal 14: "a log of bad length (over 65,535 records too)"; the place
/// "is 0 for a bad length", of log 2 too.
pub fn check_log_length(length: usize) -> Result<(), Refusal> {
    if !length.is_multiple_of(LOG_RECORD_BYTES) || length / LOG_RECORD_BYTES > MAX_LOG_RECORDS {
        return refused(14, 0);
    }
    Ok(())
}

/// The records of that party's log, or refusal 14: "a log's length before its records".
fn read_records(log: &[u8], party: Party) -> Result<Vec<LogRecord>, Refusal> {
    check_log_length(log.len())?;
    let mut records = Vec::new();
    for (number, record) in log.chunks(LOG_RECORD_BYTES).enumerate() {
        match LogRecord::of_record(record) {
            Some(record) => records.push(record),
            None => return refused(14, place(party, number)),
        }
    }
    Ok(records)
}

/// The log of that party's records, or refusal 15: "a number not above the one before it". The
/// first has none before it.
fn log_of(records: &[LogRecord], party: Party) -> Result<Log, Refusal> {
    for (before, pair) in records.windows(2).enumerate() {
        if pair[1].period <= pair[0].period {
            return refused(15, place(party, before + 1));
        }
    }
    Ok(Log::new(records))
}

/// The periods of the joined logs, "log 1 being party 1's", or the first of refusals 14 and 15:
/// "tested in that order, log 1 before log 2 within 14 and within 15".
pub fn joined(log1: &[u8], log2: &[u8]) -> Result<Vec<Period>, Refusal> {
    let one = read_records(log1, Party::One)?;
    let two = read_records(log2, Party::Two)?;
    let one = log_of(&one, Party::One)?;
    let two = log_of(&two, Party::Two)?;
    Ok(join_on_number(&one, &two))
}

/// "Joined on the period number." The trace "reaches to the greater of the two last numbers, and
/// two empty logs give an empty trace".
fn join_on_number(one: &Log, two: &Log) -> Vec<Period> {
    let last = one.last_number().max(two.last_number());
    let period = |number| Period {
        one: one.attempts(number),
        two: two.attempts(number),
    };
    (1..=last).map(period).collect()
}

/// A trace buffer's length for so many wide records, or refusal 16: "a trace buffer too short", "0
/// for a bad length and for 16".
pub fn check_room(records: usize, length: usize) -> Result<(), Refusal> {
    if length < records * Form::Wide.record_bytes() {
        return refused(16, 0);
    }
    Ok(())
}

/// The periods that a trace buffer of that length gets, or the first of refusals 14, 15 and 16.
pub fn joined_within(log1: &[u8], log2: &[u8], length: usize) -> Result<Vec<Period>, Refusal> {
    let periods = joined(log1, log2)?;
    check_room(periods.len(), length)?;
    Ok(periods)
}

/// The trace goes to the buffer's first bytes, "in wide records"; "bytes past it keep their
/// values".
fn write_trace(periods: &[Period], trace: &mut [u8]) {
    let places = trace.chunks_exact_mut(Form::Wide.record_bytes());
    for (place, period) in places.zip(periods) {
        place.copy_from_slice(&period.record(Form::Wide));
    }
}

/// "Join the two parties' logs": "the call gives its record count", that of the trace.
///
/// The result is that of the other calls: 1, or 0 if the reply area is too short for the reply.
pub fn join(log1: &[u8], log2: &[u8], trace: &mut [u8], reply: &mut [u8]) -> u32 {
    if reply.len() < SHORT_REPLY {
        return 0;
    }
    let answer = joined_within(log1, log2, trace.len());
    if let Ok(periods) = &answer {
        write_trace(periods, trace);
    }
    let records = answer.map(|periods| periods.len() as u32);
    reply[..SHORT_REPLY].copy_from_slice(&short_reply(records));
    1
}
