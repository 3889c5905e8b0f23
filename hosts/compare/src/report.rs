//! What was seen, and what differed.

use crate::cases::{Call, Case, Start, FAMILIES};
use crate::contracts::most_pending;
use crate::logs::{self, numbers};
use crate::stretches::Accepted;
use crate::traces;
use crate::watch::split;
use reference::contract::{sum_of_windows, KINDS};
use reference::logs::{check_log_length, LogRecord, LOG_TWO_PLACE};
use reference::records::{four_bytes, Form};
use reference::Monitor;
use std::cmp::Ordering;
use std::collections::{BTreeMap, BTreeSet};
use std::fmt::{self, Debug, Display, Formatter};

/// A first difference between the product and the reference.
#[derive(Clone, Debug)]
pub struct Difference {
    call: String,
    what: String,
    labels: &'static [&'static str; 2],
    sides: [String; 2],
}

impl Difference {
    pub fn new(call: &str, what: &str, expected: String, came: impl ToString) -> Difference {
        Difference {
            call: call.to_string(),
            what: what.to_string(),
            labels: &["expected", "came"],
            sides: [expected, came.to_string()],
        }
    }

    /// The same difference with other labels of its two sides.
    pub fn between(self, labels: &'static [&'static str; 2]) -> Difference {
        Difference { labels, ..self }
    }

    /// That two values are the same.
    pub fn unless_same<T: PartialEq + Debug>(
        call: &str,
        what: &str,
        expected: &T,
        came: &T,
    ) -> Result<(), Difference> {
        if expected == came {
            return Ok(());
        }
        Err(Difference::new(
            call,
            what,
            format!("{expected:?}"),
            format!("{came:?}"),
        ))
    }

    pub fn print(&self) {
        println!("{self}");
    }
}

impl Display for Difference {
    fn fmt(&self, to: &mut Formatter) -> fmt::Result {
        write!(to, "difference at {}: {}", self.call, self.what)?;
        for (label, side) in self.labels.iter().zip(&self.sides) {
            write!(to, "\n  {label:8} {side}")?;
        }
        Ok(())
    }
}

/// Bytes in hexadecimal, with spaces.
pub fn hex(bytes: &[u8]) -> String {
    let words: Vec<String> = bytes.iter().map(|byte| format!("{byte:02x}")).collect();
    words.join(" ")
}

/// Most lines of bytes that are printed of one list.
const MAX_LINES: usize = 200;

fn print_lines(name: &str, bytes: &[u8], width: usize) {
    println!("{name}, {} bytes:", bytes.len());
    for line in bytes.chunks(width).take(MAX_LINES) {
        println!("  {}", hex(line));
    }
    if bytes.len() > MAX_LINES * width {
        println!("  and so on");
    }
}

/// Prints the inputs of a case.
pub fn print_case(case: &Case) {
    match &case.start {
        Start::Contract {
            bytes,
            buffer,
            reply,
        } => {
            print_lines("contract", bytes, 6);
            println!("image buffer of {buffer} bytes, reply area of {reply}");
        }
        Start::Image { bytes, state } => {
            print_lines("image", bytes, 8);
            print_lines("state", state, 1000);
        }
    }
    for (number, call) in case.calls.iter().enumerate() {
        match call {
            Call::Begin { reply } => println!("call {number}: begin, reply area of {reply}"),
            Call::Step { period, reply } => {
                println!("call {number}: step, reply area of {reply}");
                print_lines("  period record", period, 1000);
            }
            Call::Run { trace, reply } => {
                println!("call {number}: run, reply area of {reply}");
                print_lines("  trace", trace, traces::record_bytes(trace));
            }
            Call::Decide { trace, reply } => {
                println!("call {number}: decide, reply area of {reply}");
                print_lines("  trace", trace, traces::record_bytes(trace));
            }
            Call::Join { logs, trace, reply } => {
                println!("call {number}: join, trace buffer of {trace}, reply area of {reply}");
                print_lines("  log 1", &logs[0], logs::RECORD);
                print_lines("  log 2", &logs[1], logs::RECORD);
            }
        }
    }
}

/// Prints an input of `watch`.
pub fn print_input(input: &[u8]) {
    let (contract, trace) = split(input);
    print_lines("input's contract", contract, 6);
    print_lines("input's trace", trace, traces::record_bytes(trace));
}

/// Counts of one family, or of `watch`.
#[derive(Default)]
pub struct Tally {
    cases: usize,
    /// By call and number; 99 stands for a reply area without room.
    replies: BTreeMap<(&'static str, u32), usize>,
    /// Accepted calls with records: narrow ones, narrow ones where a row names an upper action, wide.
    forms: [usize; 3],
    verdicts: [usize; 5],
    /// Accepted decides by outcome: undecided, satisfied, violated.
    decides: [usize; 3],
    /// Traces of decide by where their first bad mark stands: before the deciding record, at it,
    /// after it, where none decides.
    bad_marks: [usize; 4],
    /// Accepted decides of an `until` by what accepts its expression up to the decision.
    accepted: [usize; 3],
    /// Contracts undecided, satisfied and violated at the end of their periods.
    outcomes: [usize; 3],
    blames: [usize; 3],
    /// Decisions by period: 1, 2 to 4, 5 to 16, 17 to 64, later.
    periods: [usize; 5],
    /// Compiled contracts by records: 1, 2 to 8, 9 to 32, 33 to 63, 64.
    records: [usize; 5],
    /// Contracts by the most operands that are pending at once: 0, 1 to 8, 9 to 32, 33 to 63, 64.
    pending: [usize; 5],
    kinds: BTreeMap<u8, usize>,
    /// Duties by party: 0, 1, 2, 3 (both), above.
    owners: [usize; 5],
    /// Deadlines by window: 0, 1 to 3, 4 to 14, 15, above.
    windows: [usize; 5],
    max_rows: usize,
    /// Greatest sum of a compiled contract's windows.
    max_windows: usize,
    /// Joins refused with 14 by a length, by a record, and with 15; of each, by log 1 and by log 2.
    bad_logs: [[usize; 2]; 3],
    /// Accepted joins by the numbers that the logs have: both are empty, one is, they have the same
    /// numbers, some in common, none.
    common: [usize; 5],
    /// Accepted joins by the trace's records: 0, 1 to 16, 17 to 1,000, up to 65,534, 65,535.
    traces: [usize; 5],
    /// Most records of a log in an accepted join, and of a trace.
    max_log: usize,
    max_trace: usize,
}

const NO_ROOM: u32 = 99;

/// The index of the first limit that isn't below the value.
fn bucket(value: usize, limits: [usize; 4]) -> usize {
    limits.iter().position(|limit| value <= *limit).unwrap_or(4)
}

/// The log whose length refusal 14 at place 0 is about, 0 or 1; none if it is log 1's first record.
fn bad_length(logs: [&[u8]; 2]) -> Option<usize> {
    let is_bad = |log: &[u8]| check_log_length(log.len()).is_err();
    let first = logs[0].get(..logs::RECORD).map(LogRecord::of_record);
    match first {
        _ if is_bad(logs[0]) => Some(0),
        Some(None) => None,
        _ => Some(1),
    }
}

impl Tally {
    pub fn case(&mut self) {
        self.cases += 1;
    }

    pub fn reply(&mut self, call: &'static str, number: u32) {
        *self.replies.entry((call, number)).or_default() += 1;
    }

    pub fn no_room(&mut self, call: &'static str) {
        self.reply(call, NO_ROOM);
    }

    /// Counts a call; true if it was accepted.
    pub fn result(&mut self, call: &'static str, result: u32, reply: &[u8]) -> bool {
        if result == 0 {
            self.no_room(call);
            return false;
        }
        let number = four_bytes(reply, 0);
        self.reply(call, number);
        number == 0
    }

    /// Counts an accepted call by the form of its records, and by whether a row names an upper
    /// action.
    pub fn form(&mut self, form: Option<Form>, names_upper: bool) {
        let kind = match form {
            None => return,
            Some(Form::Narrow) => usize::from(names_upper),
            Some(Form::Wide) => 2,
        };
        self.forms[kind] += 1;
    }

    pub fn verdict(&mut self, verdict: u32) {
        self.verdicts[verdict as usize] += 1;
    }

    pub fn decide(&mut self, outcome: u32) {
        self.decides[outcome as usize] += 1;
    }

    /// Counts a trace of decide whose first bad mark is that of the record of this number; the
    /// decision period is that of the trace with good marks.
    pub fn bad_mark(&mut self, number: usize, decision: usize) {
        let deciding = decision.checked_sub(1);
        let stands = match deciding.map(|deciding| number.cmp(&deciding)) {
            Some(Ordering::Less) => 0,
            Some(Ordering::Equal) => 1,
            Some(Ordering::Greater) => 2,
            None => 3,
        };
        self.bad_marks[stands] += 1;
    }

    /// Counts a join of these logs by its reply.
    pub fn join(&mut self, log1: &[u8], log2: &[u8], reply: &[u8]) {
        let [number, records, place] = [0, 4, 8].map(|at| four_bytes(reply, at) as usize);
        let in_log_2 = usize::from(place >= LOG_TWO_PLACE);
        match number {
            0 => self.joined(log1, log2, records),
            14 if place == 0 => match bad_length([log1, log2]) {
                Some(log) => self.bad_logs[0][log] += 1,
                None => self.bad_logs[1][0] += 1,
            },
            14 => self.bad_logs[1][in_log_2] += 1,
            15 => self.bad_logs[2][in_log_2] += 1,
            _ => {}
        }
    }

    /// Counts an accepted join of these logs to a trace of so many records.
    fn joined(&mut self, log1: &[u8], log2: &[u8], records: usize) {
        let [one, two] = [log1, log2].map(|log| numbers(log).collect::<BTreeSet<u16>>());
        let sort = match (one.len(), two.len(), one.intersection(&two).count()) {
            (0, 0, _) => 0,
            (0, _, _) | (_, 0, _) => 1,
            (one, two, common) if (one, two) == (common, common) => 2,
            (_, _, 1..) => 3,
            _ => 4,
        };
        self.common[sort] += 1;
        self.traces[bucket(records, [0, 16, 1000, 65534])] += 1;
        self.max_log = self.max_log.max(one.len()).max(two.len());
        self.max_trace = self.max_trace.max(records);
    }

    pub fn compiled(&mut self, contract: &[u8], rows: usize) {
        self.records[bucket(contract.len() / 6, [1, 8, 32, 63])] += 1;
        self.max_rows = self.max_rows.max(rows);
        self.max_windows = self.max_windows.max(sum_of_windows(contract));
    }

    /// Counts the kinds of a contract's records, the owners, the windows and the pending operands.
    pub fn contract_kinds(&mut self, contract: &[u8]) {
        self.pending[bucket(most_pending(contract), [0, 8, 32, 63])] += 1;
        for record in contract.chunks_exact(6) {
            *self.kinds.entry(record[2]).or_default() += 1;
            match record[2] {
                1 => self.owners[bucket(record[3].into(), [0, 1, 2, 3])] += 1,
                10 => self.windows[bucket(record[5].into(), [0, 3, 14, 15])] += 1,
                _ => {}
            }
        }
    }

    pub fn accepted(&mut self, accepted: Option<Accepted>) {
        if let Some(accepted) = accepted {
            self.accepted[accepted as usize] += 1;
        }
    }

    pub fn decided(&mut self, meaning: &Monitor) {
        let outcome = usize::from(meaning.decision().outcome());
        self.outcomes[outcome] += 1;
        if meaning.blame() > 0 {
            self.blames[meaning.blame() as usize - 1] += 1;
        }
        if outcome > 0 {
            self.periods[bucket(meaning.decision_period(), [1, 4, 16, 64])] += 1;
        }
    }

    fn print_joins(&self) {
        for (what, counts) in ["14 by a length", "14 by a record", "15"]
            .iter()
            .zip(&self.bad_logs)
        {
            let what = format!("joins refused with {what}");
            print_counts(&what, &["of log 1", "of log 2"], counts);
        }
        let common = [
            "both empty",
            "one empty",
            "the same",
            "some in common",
            "none in common",
        ];
        print_counts(
            "accepted joins, by the logs' numbers",
            &common,
            &self.common,
        );
        let records = ["0:", "1 to 16:", "17 to 1000:", "1001 to 65534:", "65535:"];
        print_counts(
            "accepted joins, by the trace's records",
            &records,
            &self.traces,
        );
        if self.max_log > 0 {
            println!("  most records of a joined log: {}", self.max_log);
            println!("  longest joined trace: {} records", self.max_trace);
        }
    }

    pub fn print(&self, name: &str) {
        println!("{name}: {} cases", self.cases);
        for call in ["compile", "begin", "step", "run", "decide", "join", "watch"] {
            let counts: Vec<String> = self
                .replies
                .iter()
                .filter(|((of, _), _)| *of == call)
                .map(|((_, number), count)| match *number {
                    0 => format!("accepted {count}"),
                    NO_ROOM => format!("no room {count}"),
                    number => format!("{number}: {count}"),
                })
                .collect();
            if !counts.is_empty() {
                println!("  {call}: {}", counts.join(", "));
            }
        }
        let forms = ["narrow", "narrow where an upper action is named", "wide"];
        print_counts("accepted, by the records' form", &forms, &self.forms);
        let verdicts = ["open", "met", "broken", "met-after", "broken-after"];
        print_counts("verdicts", &verdicts, &self.verdicts);
        let outcomes = ["undecided", "satisfied", "violated"];
        print_counts("accepted decides", &outcomes, &self.decides);
        let stands = [
            "before the deciding record",
            "at it",
            "after it",
            "none decides",
        ];
        print_counts("decides, by first bad mark", &stands, &self.bad_marks);
        let stretches = ["none", "from its first period", "later ones alone"];
        print_counts(
            "decides of an until, by accepted stretches",
            &stretches,
            &self.accepted,
        );
        self.print_joins();
        print_counts("contracts at the end", &outcomes, &self.outcomes);
        print_counts("blames", &["1:", "2:", "3:"], &self.blames);
        let periods = ["1:", "2 to 4:", "5 to 16:", "17 to 64:", "later:"];
        print_counts("decision periods", &periods, &self.periods);
        let records = ["1:", "2 to 8:", "9 to 32:", "33 to 63:", "64:"];
        print_counts("compiled, by records", &records, &self.records);
        if self.max_rows > 0 {
            println!("  most rows of an image: {}", self.max_rows);
            println!("  greatest sum of windows: {}", self.max_windows);
        }
        let pending = ["0:", "1 to 8:", "9 to 32:", "33 to 63:", "64:"];
        print_counts("most pending operands", &pending, &self.pending);
        let owners = ["0:", "1:", "2:", "3 (both):", "above:"];
        print_counts("duties, by party", &owners, &self.owners);
        let windows = ["0:", "1 to 3:", "4 to 14:", "15:", "above:"];
        print_counts("deadlines, by window", &windows, &self.windows);
        if !self.kinds.is_empty() {
            let count = |number: u8| self.kinds.get(&number).copied().unwrap_or(0);
            let known: Vec<String> = KINDS
                .iter()
                .map(|kind| format!("{}: {}", kind.number, count(kind.number)))
                .collect();
            println!("  records by kind: {}", known.join(", "));
        }
    }
}

/// A line of counts, if there are any.
fn print_counts(what: &str, names: &[&str], counts: &[usize]) {
    if counts.iter().any(|count| *count > 0) {
        let named = names
            .iter()
            .zip(counts)
            .map(|(name, count)| format!("{name} {count}"));
        println!("  {what}: {}", named.collect::<Vec<String>>().join(", "));
    }
}

/// The counts by family, and those of `watch`.
#[derive(Default)]
pub struct Summary {
    pub families: [Tally; FAMILIES.len()],
    pub watch: Tally,
}

impl Summary {
    pub fn print(&self) {
        for ((_, name), tally) in FAMILIES.iter().zip(&self.families) {
            if tally.cases > 0 {
                tally.print(name);
            }
        }
        if self.watch.cases > 0 {
            self.watch.print("watch");
        }
    }
}

#[cfg(test)]
mod tests {
    use super::*;

    #[test]
    fn bad_marks_are_counted_by_where_they_stand() {
        let mut tally = Tally::default();
        // Decided by record 2, and not at all.
        for number in [0, 1, 2, 3, 4, 5] {
            tally.bad_mark(number, 3);
            tally.bad_mark(number, 0);
        }
        assert_eq!(tally.bad_marks, [2, 1, 3, 6]);
    }

    /// The counts of joins of these logs with a reply of that number and place.
    fn counted(logs: [&[u8]; 2], number: u32, place: u32) -> Tally {
        let mut reply = [0; 16];
        reply[..4].copy_from_slice(&number.to_le_bytes());
        reply[8..12].copy_from_slice(&place.to_le_bytes());
        let mut tally = Tally::default();
        tally.join(logs[0], logs[1], &reply);
        tally
    }

    #[test]
    fn refused_joins_are_counted_by_log() {
        const GOOD: [u8; 8] = [0x54, 0x4c, 1, 0, 0, 0, 0, 0];
        const BAD: [u8; 8] = [0x54, 0x4c, 0, 0, 0, 0, 0, 0];
        let bad_logs = |logs, number, place| counted(logs, number, place).bad_logs;
        let (good, cut) = (&GOOD[..], &GOOD[..7]);
        assert_eq!(bad_logs([cut, &BAD], 14, 0), [[1, 0], [0, 0], [0, 0]]);
        assert_eq!(bad_logs([good, cut], 14, 0), [[0, 1], [0, 0], [0, 0]]);
        assert_eq!(bad_logs([&[], cut], 14, 0), [[0, 1], [0, 0], [0, 0]]);
        assert_eq!(bad_logs([&BAD, cut], 14, 0), [[0, 0], [1, 0], [0, 0]]);
        assert_eq!(bad_logs([good, good], 14, 7), [[0, 0], [1, 0], [0, 0]]);
        assert_eq!(bad_logs([good, &BAD], 14, 65536), [[0, 0], [0, 1], [0, 0]]);
        assert_eq!(bad_logs([good, good], 15, 65535), [[0, 0], [0, 0], [1, 0]]);
        assert_eq!(bad_logs([good, good], 15, 65537), [[0, 0], [0, 0], [0, 1]]);
        assert_eq!(bad_logs([good, good], 16, 0), [[0; 2]; 3]);
    }

    #[test]
    fn accepted_joins_are_counted_by_numbers_and_length() {
        let log = |numbers: &[u8]| -> Vec<u8> {
            let record = |number: &u8| [0x54, 0x4c, *number, 0, 0, 0, 0, 0];
            numbers.iter().flat_map(record).collect()
        };
        let mut tally = Tally::default();
        for (one, two, records) in [
            (&[][..], &[][..], 0),
            (&[2], &[], 2),
            (&[], &[1, 2, 20], 20),
            (&[3, 4], &[3, 4], 4),
            (&[3, 4], &[4, 5], 5),
            (&[3, 4], &[4], 4),
            (&[1, 3], &[2], 3),
        ] {
            tally.joined(&log(one), &log(two), records);
        }
        assert_eq!(tally.common, [1, 2, 1, 2, 1]);
        assert_eq!(tally.traces, [1, 5, 1, 0, 0]);
        assert_eq!((tally.max_log, tally.max_trace), (3, 20));
    }

    #[test]
    fn different_values_are_a_difference() {
        assert!(Difference::unless_same("step", "the result", &1, &1).is_ok());
        let difference = Difference::unless_same("step", "the result", &1, &0).unwrap_err();
        assert_eq!(
            difference.to_string(),
            "difference at step: the result\n  expected 1\n  came     0"
        );
        assert_eq!(
            difference.between(&["steps", "run"]).to_string(),
            "difference at step: the result\n  steps    1\n  run      0"
        );
    }
}
