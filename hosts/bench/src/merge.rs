//! The join of two logs by hand, in safe Rust: the tests that `join` makes, in their order, and the
//! same trace. It is compiled four times, as the row machines are.

use crate::plain::{move_code, PLACES};
use std::iter::Peekable;
use std::slice::ChunksExact;

/// Bytes of a log record, and of a wide period record.
pub const RECORD: usize = 8;
pub const WIDE: usize = 10;

const LOG_MARK: [u8; 2] = [0x54, 0x4c];
const WIDE_MARK: [u8; 2] = [0x54, 0x51];
const MAX_RECORDS: usize = 65_535;
/// What is added to the place of a record of log 2.
const LOG_TWO: u64 = 65_536;

/// A refusal's number and place.
pub type Refused = (u32, u64);

/// Writes the trace of two logs into the first bytes of a buffer; gives its number of records.
pub type Join = fn(&[u8], &[u8], &mut [u8]) -> Result<u32, Refused>;

/// The same code in every place.
pub const JOINS: [Join; PLACES] = [join::<0>, join::<16>, join::<32>, join::<48>];

fn join<const MOVED: usize>(log1: &[u8], log2: &[u8], trace: &mut [u8]) -> Result<u32, Refused> {
    move_code::<MOVED>();
    let (one, two) = (tested(log1, 0)?, tested(log2, LOG_TWO)?);
    if let Some(place) = one.not_above.or(two.not_above) {
        return Err((15, place));
    }
    let records = one.last.max(two.last);
    let trace = trace
        .get_mut(..WIDE * usize::from(records))
        .ok_or((16, 0))?;
    merge(log1, log2, trace);
    Ok(records.into())
}

/// What the tests of a log's records find.
struct Tested {
    /// The last number, 0 for none.
    last: u16,
    /// The place of the first record whose number isn't above the one before it.
    not_above: Option<u64>,
}

#[inline(always)]
fn tested(log: &[u8], first_place: u64) -> Result<Tested, Refused> {
    let records = log.chunks_exact(RECORD);
    if !records.remainder().is_empty() || records.len() > MAX_RECORDS {
        return Err((14, 0));
    }
    let (mut last, mut not_above) = (0, None);
    for (place, record) in (first_place..).zip(records) {
        let number = number(record);
        if record[..2] != LOG_MARK || number == 0 {
            return Err((14, place));
        }
        if number <= last && not_above.is_none() {
            not_above = Some(place);
        }
        last = number;
    }
    Ok(Tested { last, not_above })
}

#[inline(always)]
fn number(record: &[u8]) -> u16 {
    u16::from_le_bytes([record[2], record[3]])
}

#[inline(always)]
fn merge(log1: &[u8], log2: &[u8], trace: &mut [u8]) {
    let [mut one, mut two] = [log1, log2].map(|log| log.chunks_exact(RECORD).peekable());
    for (number, record) in (1..=u16::MAX).zip(trace.chunks_exact_mut(WIDE)) {
        record[..2].copy_from_slice(&WIDE_MARK);
        record[2..6].copy_from_slice(&attempts(&mut one, number));
        record[6..].copy_from_slice(&attempts(&mut two, number));
    }
}

/// The attempts of the log's next record, if it is of that period.
#[inline(always)]
fn attempts(log: &mut Peekable<ChunksExact<u8>>, period: u16) -> [u8; 4] {
    match log.next_if(|record| number(record) == period) {
        Some(record) => [record[4], record[5], record[6], record[7]],
        None => [0; 4],
    }
}

#[cfg(test)]
mod tests {
    use super::*;
    use reference::logs;

    /// The merge in every place gives what the reference gives.
    fn hold(log1: &[u8], log2: &[u8], length: usize) {
        let (mut expected, mut reply) = (vec![0xee; length], [0; 16]);
        logs::join(log1, log2, &mut expected, &mut reply);
        let field = |at: usize| u32::from_le_bytes(reply[at..at + 4].try_into().unwrap());
        let answer = match field(0) {
            0 => Ok(field(4)),
            number => Err((number, field(8).into())),
        };
        for join in JOINS {
            let mut trace = vec![0xee; length];
            assert_eq!(join(log1, log2, &mut trace), answer, "{log1:?} {log2:?}");
            assert_eq!(trace, expected);
        }
    }

    /// All logs of at most three records on numbers 0 to 3, or with another mark.
    fn short_logs(party: u8) -> Vec<Vec<u8>> {
        let mut all = vec![vec![]];
        for from in [0, 1, 6] {
            let longer: Vec<Vec<u8>> = all[from..]
                .iter()
                .flat_map(|log| {
                    (0..5).map(move |number| {
                        let mark = if number == 4 { 0x51 } else { 0x4c };
                        let record = [0x54, mark, number, 0, number, party, 0, 0x80];
                        [&log[..], &record].concat()
                    })
                })
                .collect();
            all.extend(longer);
        }
        all
    }

    #[test]
    fn the_merge_gives_what_the_reference_gives() {
        let (ones, twos) = (short_logs(1), short_logs(2));
        assert_eq!(ones.len(), 1 + 5 + 25 + 125);
        for one in &ones {
            for two in &twos {
                for length in [0, 20, 29, 30, 35] {
                    hold(one, two, length);
                }
            }
        }
    }

    #[test]
    fn lengths_of_logs_and_the_greatest_number() {
        let log = [
            0x54, 0x4c, 1, 0, 1, 2, 3, 4, 0x54, 0x4c, 0xff, 0xff, 5, 6, 7, 8,
        ];
        for length in 0..log.len() {
            hold(&log[..length], &log[..8], 30);
            hold(&log[..8], &log[..length], 30);
        }
        for length in [655_349, 655_350, 655_351] {
            hold(&log, &log[..8], length);
        }
        let full: Vec<u8> = (1..=65_536u32)
            .flat_map(|number| [0x54, 0x4c, number as u8, (number >> 8) as u8, 1, 0, 0, 0])
            .collect();
        hold(&full[..8 * 65_535], &full[..8 * 65_535], 655_350);
        hold(&full, &[], 655_350);
        hold(&[], &full, 655_350);
    }
}
