//! What step, run and decide answer.

use core::fmt;
use core::num::NonZeroU32;

/// How a contract stands after the periods taken so far.
#[derive(Clone, Copy, Debug, PartialEq, Eq, Hash)]
#[repr(u32)]
pub enum Verdict {
    /// Undecided.
    Open = 0,
    /// Satisfied in the last period.
    Met = 1,
    /// Violated in the last period.
    Broken = 2,
    /// Satisfied in a period before.
    MetAfter = 3,
    /// Violated in a period before.
    BrokenAfter = 4,
}

impl Verdict {
    /// The verdict of this number, if it is at most 4.
    #[must_use]
    pub const fn from_number(number: u32) -> Option<Verdict> {
        Some(match number {
            0 => Verdict::Open,
            1 => Verdict::Met,
            2 => Verdict::Broken,
            3 => Verdict::MetAfter,
            4 => Verdict::BrokenAfter,
            _ => return None,
        })
    }

    /// 0 to 4.
    #[must_use]
    pub const fn number(self) -> u32 {
        self as u32
    }

    /// The verdict's name, as `watch` prints it.
    #[must_use]
    pub const fn name(self) -> &'static str {
        match self {
            Verdict::Open => "open",
            Verdict::Met => "met",
            Verdict::Broken => "broken",
            Verdict::MetAfter => "met-after",
            Verdict::BrokenAfter => "broken-after",
        }
    }
}

impl fmt::Display for Verdict {
    fn fmt(&self, f: &mut fmt::Formatter<'_>) -> fmt::Result {
        f.pad(self.name())
    }
}

/// What a trace makes of a contract.
#[derive(Clone, Copy, Debug, PartialEq, Eq, Hash)]
#[repr(u32)]
pub enum Outcome {
    /// No period of the trace decides.
    Undecided = 0,
    /// Satisfied in a period of it.
    Satisfied = 1,
    /// Violated in a period of it.
    Violated = 2,
}

impl Outcome {
    /// The outcome of this number, if it is at most 2.
    #[must_use]
    pub const fn from_number(number: u32) -> Option<Outcome> {
        Some(match number {
            0 => Outcome::Undecided,
            1 => Outcome::Satisfied,
            2 => Outcome::Violated,
            _ => return None,
        })
    }

    /// 0 to 2.
    #[must_use]
    pub const fn number(self) -> u32 {
        self as u32
    }

    /// The outcome's name in document 01.
    #[must_use]
    pub const fn name(self) -> &'static str {
        match self {
            Outcome::Undecided => "undecided",
            Outcome::Satisfied => "satisfied",
            Outcome::Violated => "violated",
        }
    }
}

impl fmt::Display for Outcome {
    fn fmt(&self, f: &mut fmt::Formatter<'_>) -> fmt::Result {
        f.pad(self.name())
    }
}

/// Who is to blame for a violation.
#[derive(Clone, Copy, Debug, PartialEq, Eq, Hash)]
#[repr(u32)]
pub enum Blame {
    /// Party 1.
    One = 1,
    /// Party 2.
    Two = 2,
    /// Both parties.
    Both = 3,
}

impl Blame {
    /// The blame of this number, if it is 1 to 3.
    #[must_use]
    pub const fn from_number(number: u32) -> Option<Blame> {
        Some(match number {
            1 => Blame::One,
            2 => Blame::Two,
            3 => Blame::Both,
            _ => return None,
        })
    }

    /// 1 to 3.
    #[must_use]
    pub const fn number(self) -> u32 {
        self as u32
    }
}

impl fmt::Display for Blame {
    fn fmt(&self, f: &mut fmt::Formatter<'_>) -> fmt::Result {
        f.pad(match self {
            Blame::One => "party 1",
            Blame::Two => "party 2",
            Blame::Both => "both parties",
        })
    }
}

/// The answer after the periods taken so far: a step's, and a look's.
#[derive(Clone, Copy, Debug, PartialEq, Eq, Hash)]
pub struct Reply {
    /// How the contract stands.
    pub verdict: Verdict,
    /// Who is to blame; `None` unless the contract is violated.
    pub blame: Option<Blame>,
    /// The period that decided, counted from 1; `None` while the contract is open.
    pub decision: Option<NonZeroU32>,
}

/// What a run gives. Further fields may come.
#[derive(Clone, Copy, Debug, PartialEq, Eq, Hash)]
#[non_exhaustive]
pub struct RunReply {
    /// The answer after the periods taken so far.
    pub reply: Reply,
}

/// What decide gives. Further fields may come.
#[derive(Clone, Copy, Debug, PartialEq, Eq, Hash)]
#[non_exhaustive]
pub struct DecideReply {
    /// What the trace makes of the contract.
    pub outcome: Outcome,
    /// Who is to blame; `None` unless the contract is violated.
    pub blame: Option<Blame>,
    /// The period that decided, counted from 1; `None` if none did.
    pub decision: Option<NonZeroU32>,
    /// How many records were read: up to the one that decided, or all.
    pub records: u32,
}
