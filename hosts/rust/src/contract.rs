//! Contracts: a list of records, operands before their operator.

use alloc::vec::Vec;

use crate::Clause;

/// One of a contract's two parties.
#[derive(Clone, Copy, Debug, PartialEq, Eq, Hash)]
#[repr(u8)]
pub enum Party {
    /// Party 1.
    One = 1,
    /// Party 2.
    Two = 2,
}

impl Party {
    /// 1 or 2.
    #[must_use]
    pub const fn number(self) -> u8 {
        self as u8
    }
}

/// The owner of a duty: one party, or both. A duty that both own is a joint duty.
///
/// [`Clause::duty`] takes a [`Party`] as the owner too; a [`Record::Duty`] has the owner itself:
///
/// ```
/// use monitor::{Action, Clause, Owner, Party, Record};
///
/// const PLUGIN: Party = Party::One;
/// const SAVE: Action = Action::new(3).unwrap();
/// const DUTY: Record = Record::Duty(Owner::Party(PLUGIN), SAVE);
/// const JOINT_DUTY: Record = Record::Duty(Owner::Both, SAVE);
///
/// assert!(Clause::duty(PLUGIN, SAVE).records().eq([DUTY]));
/// assert!(Clause::duty(Owner::Both, SAVE).records().eq([JOINT_DUTY]));
/// ```
#[derive(Clone, Copy, Debug, PartialEq, Eq, Hash)]
pub enum Owner {
    /// One party.
    Party(Party),
    /// Both parties.
    Both,
}

impl Owner {
    /// 1 or 2 for a party, 3 for both.
    #[must_use]
    pub const fn number(self) -> u8 {
        match self {
            Owner::Party(party) => party.number(),
            Owner::Both => 3,
        }
    }
}

impl From<Party> for Owner {
    fn from(party: Party) -> Owner {
        Owner::Party(party)
    }
}

/// An action, 0 to 31. It succeeds in a period in which both parties try it.
#[derive(Clone, Copy, Debug, PartialEq, Eq, Hash, PartialOrd, Ord)]
pub struct Action(u8);

impl Action {
    /// How many actions there are.
    pub const COUNT: u8 = 32;

    /// The action of this number, if it is below 32.
    ///
    /// As a constant it is checked when the host is built:
    ///
    /// ```
    /// use monitor::Action;
    /// const SAVE: Action = Action::new(3).unwrap();
    /// assert_eq!(SAVE.number(), 3);
    /// ```
    #[must_use]
    pub const fn new(number: u8) -> Option<Action> {
        if number < Action::COUNT {
            Some(Action(number))
        } else {
            None
        }
    }

    /// 0 to 31.
    #[must_use]
    pub const fn number(self) -> u8 {
        self.0
    }

    /// The bit that stands for the action in a mask of attempts.
    pub(crate) const fn bit(self) -> u32 {
        1 << self.0
    }
}

/// The window of a [`deadline`](Clause::deadline), 1 to 15 periods.
#[derive(Clone, Copy, Debug, PartialEq, Eq, Hash, PartialOrd, Ord)]
pub struct Window(u8);

impl Window {
    /// The periods of the longest window.
    pub const MAX: u8 = 15;

    /// The window of so many periods, if they are 1 to 15.
    ///
    /// As a constant it is checked when the host is built:
    ///
    /// ```
    /// use monitor::Window;
    /// const SOON: Window = Window::new(3).unwrap();
    /// assert_eq!(SOON.periods(), 3);
    /// ```
    #[must_use]
    pub const fn new(periods: u8) -> Option<Window> {
        match periods {
            1..=Window::MAX => Some(Window(periods)),
            _ => None,
        }
    }

    /// 1 to 15.
    #[must_use]
    pub const fn periods(self) -> u8 {
        self.0
    }
}

/// A record of a contract: a clause, an expression, or an operator on those before it.
///
/// A record's mark, kind and fields are right by construction (refusals 2 to 4). Whether the
/// records together are a contract is for [`Image::compile`](crate::Image::compile) to say. What
/// each means is said at the function of that name, of [`Clause`] or
/// [`Expression`](crate::Expression).
#[derive(Clone, Copy, Debug, PartialEq, Eq, Hash)]
#[non_exhaustive]
pub enum Record {
    /// A clause: [`duty`](Clause::duty).
    Duty(Owner, Action),
    /// A clause: [`ban`](Clause::ban).
    Ban(Party, Action),
    /// A clause: [`power`](Clause::power).
    Power(Party, Action),
    /// Of two clauses: [`both`](Clause::both).
    Both,
    /// Of two clauses: [`then`](Clause::then).
    Then,
    /// Of two clauses: [`repair`](Clause::repair).
    Repair,
    /// Of a clause: [`repeat`](Clause::repeat).
    Repeat,
    /// Of an expression, then a clause: [`when`](Clause::when).
    When,
    /// Of a clause, then an expression: [`until`](Clause::until).
    Until,
    /// A clause: [`deadline`](Clause::deadline).
    Deadline(Party, Action, Window),
    /// An expression: [`any`](crate::Expression::any).
    Any,
    /// An expression: [`tries`](crate::Expression::tries).
    Tries(Party, Action),
    /// An expression: [`idle`](crate::Expression::idle).
    Idle(Party, Action),
    /// An expression: [`succeeds`](crate::Expression::succeeds).
    Succeeds(Action),
    /// An expression: [`fails`](crate::Expression::fails).
    Fails(Action),
    /// Of two expressions: [`seq`](crate::Expression::seq).
    Seq,
    /// Of two expressions: [`or`](crate::Expression::or).
    Or,
    /// Of an expression: [`star`](crate::Expression::star).
    Star,
}

impl Record {
    /// The bytes of a record.
    pub const BYTES: usize = 6;

    /// The number of the record's kind.
    #[must_use]
    pub const fn kind(self) -> u8 {
        match self {
            Record::Duty(..) => 1,
            Record::Ban(..) => 2,
            Record::Power(..) => 3,
            Record::Both => 4,
            Record::Then => 5,
            Record::Repair => 6,
            Record::Repeat => 7,
            Record::When => 8,
            Record::Until => 9,
            Record::Deadline(..) => 10,
            Record::Any => 16,
            Record::Tries(..) => 17,
            Record::Idle(..) => 18,
            Record::Succeeds(_) => 19,
            Record::Fails(_) => 20,
            Record::Seq => 21,
            Record::Or => 22,
            Record::Star => 23,
        }
    }

    /// The record as it stands in a contract; a field that its kind doesn't use is 0.
    #[must_use]
    pub const fn to_bytes(self) -> [u8; Record::BYTES] {
        let (party, action, last) = match self {
            Record::Duty(owner, action) => (owner.number(), action.number(), 0),
            Record::Ban(party, action)
            | Record::Power(party, action)
            | Record::Tries(party, action)
            | Record::Idle(party, action) => (party.number(), action.number(), 0),
            Record::Deadline(party, action, window) => {
                (party.number(), action.number(), window.periods())
            }
            Record::Succeeds(action) | Record::Fails(action) => (0, action.number(), 0),
            Record::Both
            | Record::Then
            | Record::Repair
            | Record::Repeat
            | Record::When
            | Record::Until
            | Record::Any
            | Record::Seq
            | Record::Or
            | Record::Star => (0, 0, 0),
        };
        [0x54, 0x43, self.kind(), party, action, last]
    }
}

/// The bytes of a contract: 1 to 64 records, if it is to be taken.
///
/// Made from a [`Clause`], from records, or from bytes that were read elsewhere. Nothing is checked
/// before [`Image::compile`](crate::Image::compile), which also takes borrowed bytes as they are.
#[derive(Clone, Debug, PartialEq, Eq, Hash)]
pub struct Contract(Vec<u8>);

impl Contract {
    /// The most records of a contract.
    pub const MAX_RECORDS: usize = 64;

    /// The contract of these records, operands before their operator.
    #[must_use]
    pub fn from_records(records: &[Record]) -> Contract {
        records.iter().copied().collect()
    }

    /// The contract of these bytes, whatever they are.
    #[must_use]
    pub fn from_bytes(bytes: impl Into<Vec<u8>>) -> Contract {
        Contract(bytes.into())
    }

    /// The contract's bytes.
    #[must_use]
    pub fn as_bytes(&self) -> &[u8] {
        &self.0
    }
}

impl AsRef<[u8]> for Contract {
    fn as_ref(&self) -> &[u8] {
        self.as_bytes()
    }
}

impl FromIterator<Record> for Contract {
    fn from_iter<I: IntoIterator<Item = Record>>(records: I) -> Contract {
        Contract(records.into_iter().flat_map(Record::to_bytes).collect())
    }
}

/// The contract that means what the clause means.
impl From<&Clause> for Contract {
    fn from(clause: &Clause) -> Contract {
        clause.records().collect()
    }
}

/// The contract that means what the clause means.
impl From<Clause> for Contract {
    fn from(clause: Clause) -> Contract {
        Contract::from(&clause)
    }
}
