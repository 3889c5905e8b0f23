//! By which stretches an `until` accepts its expression.

use reference::reading::{Read, Stretches, Waiting};
use reference::{Clause, Period};

/// What accepts the expression of an `until`.
#[derive(Clone, Copy, Debug, PartialEq, Eq)]
pub enum Accepted {
    Never,
    /// The stretch from the first period on, as under `when`.
    FromFirst,
    /// Only stretches that begin later.
    Later,
}

/// What the periods show of a contract that is an `until`.
pub fn accepted(clause: &Clause, read: impl Iterator<Item = Period>) -> Option<Accepted> {
    let Clause::Until(_, expression) = clause else {
        return None;
    };
    let mut from_first = Some(Waiting::new(expression));
    let mut stretches = Stretches::new(expression);
    for period in read {
        let first = from_first.map(|waiting| waiting.read(period));
        match stretches.read(period) {
            Some(rest) => stretches = rest,
            None if matches!(first, Some(Read::Accepted)) => return Some(Accepted::FromFirst),
            None => return Some(Accepted::Later),
        }
        from_first = match first {
            Some(Read::Pending(rest)) => Some(rest),
            _ => None,
        };
    }
    Some(Accepted::Never)
}

#[cfg(test)]
mod tests {
    use super::*;
    use crate::random::Random;
    use crate::{contracts, traces};
    use reference::contract::read;

    /// A duty, repeated until party 1 tries action 1, and then party 2.
    const UNTIL: &[u8] = b"TC\x01\x01\0\0TC\x07\0\0\0TC\x11\x01\x01\0TC\x11\x02\x01\0\
                           TC\x15\0\0\0TC\x09\0\0\0";
    const ONE: &[u8] = b"TP\x02\0\0\0";
    const TWO: &[u8] = b"TP\0\0\x02\0";

    fn shown(contract: &[u8], trace: &[&[u8]]) -> Option<Accepted> {
        let clause = read(contract).expect("a contract");
        accepted(&clause, traces::periods(&trace.concat()))
    }

    #[test]
    fn stretches_are_told_apart() {
        let accepted = |trace: &[&[u8]]| shown(UNTIL, trace);
        assert_eq!(accepted(&[]), Some(Accepted::Never));
        assert_eq!(accepted(&[ONE, ONE]), Some(Accepted::Never));
        assert_eq!(accepted(&[ONE, TWO]), Some(Accepted::FromFirst));
        assert_eq!(accepted(&[ONE, ONE, TWO]), Some(Accepted::Later));
        assert_eq!(accepted(&[TWO, ONE, TWO]), Some(Accepted::Later));
    }

    #[test]
    fn another_contract_has_none() {
        assert_eq!(shown(b"TC\x01\x01\0\0", &[ONE]), None);
        assert_eq!(shown(&[UNTIL, b"TC\x07\0\0\0"].concat(), &[ONE]), None);
    }

    #[test]
    fn each_comes_up() {
        let mut counts = [0; 3];
        for seed in 0..3000 {
            let random = &mut Random::new(seed);
            let clause = read(&contracts::good(random)).expect("a good contract");
            let periods = traces::for_clause(random, &clause, 20);
            if let Some(accepted) = accepted(&clause, periods.into_iter()) {
                counts[accepted as usize] += 1;
            }
        }
        assert!(counts.iter().all(|count| *count > 50), "{counts:?}");
    }
}
