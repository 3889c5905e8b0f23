//! What `watch` prints.

use crate::clause::Clause;
use crate::contract;
use crate::monitor::Monitor;
use crate::records::{read_trace, refused, Form, Period, Refusal, RECORD_BYTES};
use std::fmt::Write;
use std::rc::Rc;

/// "`watch` reads standard input up to 65,520 bytes."
pub const MAX_INPUT: usize = 65520;

/// The text for an input: "a line per period (number, verdict name, blame) and then `decided` with
/// the decision period, 0 for none. A refusal prints only `refused`, number, place."
pub fn watch(input: &[u8]) -> String {
    match read(input) {
        Ok((clause, periods)) => lines(&clause, &periods),
        Err(refusal) => format!("refused {} {}\n", refusal.number, refusal.place),
    }
}

/// "13 is tested first, then compile's, then run's on the trace." Watch has buffers of its own that
/// are long enough, so 8 to 10 don't arise, and 65,520 bytes hold too few periods for 12.
fn read(input: &[u8]) -> Result<(Rc<Clause>, Vec<Period>), Refusal> {
    if input.len() > MAX_INPUT {
        return refused(13, 0);
    }
    let (contract, trace) = input.split_at(contract_length(input));
    Ok((contract::read(contract)?, read_trace(trace)?))
}

/// "`watch` begins its trace at the first whole six bytes, counted in sixes, that start with either
/// mark." Without these "all is contract".
pub fn contract_length(input: &[u8]) -> usize {
    let first = input
        .chunks_exact(RECORD_BYTES)
        .position(|six| Form::of_mark(&six[..2]).is_some());
    match first {
        Some(records) => records * RECORD_BYTES,
        None => input.len(),
    }
}

fn lines(clause: &Clause, periods: &[Period]) -> String {
    let mut text = String::new();
    let mut monitor = Monitor::new(clause);
    for period in periods {
        monitor.step(period.one, period.two);
        let (number, verdict) = (monitor.periods(), monitor.verdict().name());
        writeln!(text, "{number} {verdict} {}", monitor.blame()).expect("a String takes all");
    }
    writeln!(text, "decided {}", monitor.decision_period()).expect("a String takes all");
    text
}
