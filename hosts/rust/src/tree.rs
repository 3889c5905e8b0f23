//! Contracts as trees: clauses and expressions, which spell their records.

use alloc::collections::VecDeque;

use crate::{Action, Owner, Party, Record, Window};

/// Records of a tree, operands before their operator.
type Records = VecDeque<Record>;

fn leaf(record: Record) -> Records {
    Records::from([record])
}

/// An operator on one operand.
fn over(mut operand: Records, operator: Record) -> Records {
    operand.push_back(operator);
    operand
}

/// An operator on two operands. The shorter one's records move to the other's, so that a record
/// moves at most as often as its list can double, however the tree grows.
fn join(mut left: Records, mut right: Records, operator: Record) -> Records {
    if left.len() < right.len() {
        for record in left.into_iter().rev() {
            right.push_front(record);
        }
        over(right, operator)
    } else {
        left.append(&mut right);
        over(left, operator)
    }
}

/// A clause, built as a tree. The order of its records and the sorts of their operands are right by
/// construction.
///
/// A contract is made from it: `Contract::from(clause)`. Of the refusals of a contract two are
/// left: 1, for more than 64 records, and 7, for an expression under [`when`](Clause::when) or
/// [`until`](Clause::until) that holds the empty list, as a [`star`](Expression::star) does.
///
/// Operators are methods, or functions in the order in which document 01 writes them:
///
/// ```
/// use monitor::{Action, Clause, Contract, Expression, Party, Record};
///
/// const A: Action = Action::new(0).unwrap();
/// const B: Action = Action::new(1).unwrap();
///
/// let notice = Expression::tries(Party::One, B);
/// let clause = Clause::duty(Party::One, A).repeat().until(notice.clone());
/// assert_eq!(
///     clause,
///     Clause::until(Clause::repeat(Clause::duty(Party::One, A)), notice)
/// );
///
/// let records = [
///     Record::Duty(Party::One.into(), A),
///     Record::Repeat,
///     Record::Tries(Party::One, B),
///     Record::Until,
/// ];
/// assert!(clause.records().eq(records));
/// assert_eq!(Contract::from(clause), Contract::from_records(&records));
/// ```
#[derive(Clone, Debug, PartialEq, Eq, Hash)]
#[must_use]
pub struct Clause(Records);

impl Clause {
    /// In its first period both parties try the action. The party that owns the duty is to blame
    /// if it doesn't, otherwise the other one. If both own it (a joint duty), each party that
    /// doesn't try is to blame.
    ///
    /// ```
    /// use monitor::{Action, Blame, Clause, Contract, Image, Monitor, Owner, Party, Period};
    ///
    /// const PLUGIN: Party = Party::One;
    /// const VALUES: Action = Action::new(0).unwrap();
    /// const TOTALS: Action = Action::new(1).unwrap();
    ///
    /// # fn main() -> Result<(), monitor::Refusal> {
    /// // The plugin owes its values. The check of the totals is both parties' duty.
    /// let totals = Clause::duty(Owner::Both, TOTALS);
    /// let clause = Clause::duty(PLUGIN, VALUES).both(totals).repeat();
    /// let mut sheet = Monitor::begin(&Image::compile(Contract::from(clause))?);
    ///
    /// // The values are handed over, but nobody checks the totals.
    /// let reply = sheet.step(Period::from_actions(&[VALUES], &[VALUES]))?;
    /// assert_eq!(reply.blame, Some(Blame::Both));
    /// # Ok(())
    /// # }
    /// ```
    pub fn duty(owner: impl Into<Owner>, action: Action) -> Clause {
        Clause(leaf(Record::Duty(owner.into(), action)))
    }

    /// In one of its first periods, as many as the window has, both parties try the action;
    /// satisfied in the first in which they do. If they don't in any of them, violated in the
    /// window's last period: the party is to blame if it doesn't try the action there, otherwise
    /// the other one.
    ///
    /// ```
    /// use monitor::{Action, Clause, Party, Window};
    ///
    /// const CELLS: Action = Action::new(0).unwrap();
    /// const SOON: Window = Window::new(3).unwrap();
    ///
    /// // Again and again party 2 serves the cells, at most two periods late.
    /// let clause = Clause::deadline(Party::Two, CELLS, SOON).repeat();
    /// # assert_eq!(clause.records().len(), 2);
    /// ```
    pub fn deadline(party: Party, action: Action, window: Window) -> Clause {
        Clause(leaf(Record::Deadline(party, action, window)))
    }

    /// In its first period not both parties try the action. The party is to blame if they do.
    pub fn ban(party: Party, action: Action) -> Clause {
        Clause(leaf(Record::Ban(party, action)))
    }

    /// If the party tries the action in the first period, so does the other one, who is to blame if
    /// it doesn't.
    pub fn power(party: Party, action: Action) -> Clause {
        Clause(leaf(Record::Power(party, action)))
    }

    /// Both clauses at once, satisfied when both are. The earlier violation counts, and blames are
    /// united only where both are violated in one period.
    pub fn both(self, other: Clause) -> Clause {
        Clause(join(self.0, other.0, Record::Both))
    }

    /// When this clause is satisfied, the next from the period after; violated when this one is.
    pub fn then(self, next: Clause) -> Clause {
        Clause(join(self.0, next.0, Record::Then))
    }

    /// When this clause is violated, the repair from the period after, and its blame alone;
    /// satisfied when this one is.
    pub fn repair(self, repair: Clause) -> Clause {
        Clause(join(self.0, repair.0, Record::Repair))
    }

    /// This clause anew from the period after each of its satisfactions; violated when it is, never
    /// satisfied.
    pub fn repeat(self) -> Clause {
        Clause(over(self.0, Record::Repeat))
    }

    /// When the expression is accepted, the clause from the period after; satisfied when the
    /// expression is rejected. The expression matches from the first period.
    ///
    /// ```
    /// use monitor::{Action, Clause, Expression, Party};
    ///
    /// const ASK: Action = Action::new(0).unwrap();
    /// const ANSWER: Action = Action::new(1).unwrap();
    ///
    /// // Whenever party 1 asks, party 2 owes an answer in the next period.
    /// let asked = Expression::tries(Party::One, ASK);
    /// let clause = Clause::when(asked, Clause::duty(Party::Two, ANSWER)).repeat();
    /// # assert_eq!(clause.records().len(), 4);
    /// ```
    pub fn when(expression: Expression, clause: Clause) -> Clause {
        Clause(join(expression.0, clause.0, Record::When))
    }

    /// This clause's own decision if it comes no later than the expression's acceptance, otherwise
    /// satisfied at the acceptance. The expression may match from any period of this `until`, and is
    /// never rejected.
    ///
    /// ```
    /// use monitor::{Action, Clause, Expression, Party};
    ///
    /// const VALUES: Action = Action::new(0).unwrap();
    /// const NOTICE: Action = Action::new(1).unwrap();
    ///
    /// // In each period party 1 owes its values, until party 2 gives notice twice, in two periods
    /// // one after the other.
    /// let once = || Expression::tries(Party::Two, NOTICE);
    /// let clause = Clause::duty(Party::One, VALUES).repeat().until(once().seq(once()));
    /// # assert_eq!(clause.records().len(), 6);
    /// ```
    pub fn until(self, expression: Expression) -> Clause {
        Clause(join(self.0, expression.0, Record::Until))
    }

    /// The records that spell the clause, operands before their operator.
    #[must_use]
    pub fn records(&self) -> impl DoubleEndedIterator<Item = Record> + ExactSizeIterator + '_ {
        self.0.iter().copied()
    }
}

/// An expression, built as a tree, to stand under [`Clause::when`] or [`Clause::until`]. It is a set
/// of lists of periods.
///
/// Under `when` it is accepted at the first period by which the periods read so far are one of its
/// lists, and rejected when no further periods can make them one. Under `until` it is accepted at
/// the first period with which some stretch ends that is one of its lists, whichever of the periods
/// read so far the stretch begins with, and never rejected.
#[derive(Clone, Debug, PartialEq, Eq, Hash)]
#[must_use]
pub struct Expression(Records);

impl Expression {
    /// Any one period.
    pub fn any() -> Expression {
        Expression(leaf(Record::Any))
    }

    /// One period in which the party tries the action.
    pub fn tries(party: Party, action: Action) -> Expression {
        Expression(leaf(Record::Tries(party, action)))
    }

    /// One period in which the party doesn't try the action.
    pub fn idle(party: Party, action: Action) -> Expression {
        Expression(leaf(Record::Idle(party, action)))
    }

    /// One period in which both parties try the action.
    pub fn succeeds(action: Action) -> Expression {
        Expression(leaf(Record::Succeeds(action)))
    }

    /// One period in which not both parties try the action.
    pub fn fails(action: Action) -> Expression {
        Expression(leaf(Record::Fails(action)))
    }

    /// A list of this expression, then one of the next.
    pub fn seq(self, next: Expression) -> Expression {
        Expression(join(self.0, next.0, Record::Seq))
    }

    /// A list of either expression.
    pub fn or(self, other: Expression) -> Expression {
        Expression(join(self.0, other.0, Record::Or))
    }

    /// Zero or more lists of this expression, one after the other; so also the empty list.
    pub fn star(self) -> Expression {
        Expression(over(self.0, Record::Star))
    }

    /// The records that spell the expression, operands before their operator.
    #[must_use]
    pub fn records(&self) -> impl DoubleEndedIterator<Item = Record> + ExactSizeIterator + '_ {
        self.0.iter().copied()
    }
}
