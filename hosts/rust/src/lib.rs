//! The plugin contract monitor for hosts in Rust: a safe wrapper over its six calls.
//!
//! A contract binds two parties, say a plugin and the host that runs it. In each period (say a
//! recalculation) each party tries some actions; an action succeeds when both try it. The monitor
//! is given both parties' attempts and says whether the contract is open, met or broken, since
//! which period, and who is to blame. `docs/FORMAT.md` says what contracts, periods, images and
//! states are; it says what "document 01" says, which these pages cite, and of deadlines, joint
//! duties, the expression of an `until`, decide, thirty-two actions and logs document 02.
//!
//! A host builds a [`Clause`] and makes a [`Contract`] from it, compiles that to an [`Image`] once,
//! begins a [`Monitor`] for each spreadsheet under the contract, and steps each of them with
//! [`Period`]s. A [`Reply`] is the answer, a [`Refusal`] says what was wrong with what was given.
//!
//! ```
//! use monitor::{Action, Blame, Clause, Contract, Image, Monitor, Party, Period, Refusal, Verdict};
//!
//! const PLUGIN: Party = Party::One;
//! const VALUES: Action = Action::new(0).unwrap();
//! const CORRECTION: Action = Action::new(1).unwrap();
//!
//! fn main() -> Result<(), Refusal> {
//!     // Again and again the plugin hands over its values, or else a correction one period later.
//!     let correction = Clause::duty(PLUGIN, CORRECTION);
//!     let clause = Clause::duty(PLUGIN, VALUES).repair(correction).repeat();
//!     let image = Image::compile(Contract::from(clause))?;
//!     let mut sheet = Monitor::begin(&image);
//!
//!     // The plugin's attempts, then the host's: the values are handed over.
//!     let reply = sheet.step(Period::from_actions(&[VALUES], &[VALUES]))?;
//!     assert_eq!(reply.verdict, Verdict::Open);
//!     // Nobody tries anything; the correction is owed now, and the host doesn't take it.
//!     sheet.step(Period::default())?;
//!     let reply = sheet.step(Period::from_actions(&[CORRECTION], &[]))?;
//!     assert_eq!(reply.verdict, Verdict::Broken);
//!     assert_eq!(reply.blame, Some(Blame::Two));
//!     assert_eq!(reply.decision.map(|period| period.get()), Some(3));
//!     Ok(())
//! }
//! ```
//!
//! A contract is also made from a list of [`Record`]s or from bytes. An image and a monitor's state
//! are bytes that can be stored:
//!
//! ```
//! # use monitor::{Action, Clause, Contract, Image, Monitor, Party, Period, Refusal};
//! # fn main() -> Result<(), Refusal> {
//! # const VALUES: Action = Action::new(0).unwrap();
//! # let image = Image::compile(Contract::from(Clause::duty(Party::One, VALUES).repeat()))?;
//! # let mut sheet = Monitor::begin(&image);
//! # sheet.step(Period::from_actions(&[VALUES], &[VALUES]))?;
//! let (stored_image, stored_state) = (image.as_bytes().to_vec(), sheet.state().to_vec());
//!
//! let image = Image::from_bytes(stored_image)?;
//! let sheet = Monitor::resume(&image, stored_state)?;
//! println!("{} after {} periods", sheet.look().verdict, sheet.periods());
//! # assert_eq!((sheet.look().verdict, sheet.periods()), (monitor::Verdict::Open, 1));
//! # Ok(())
//! # }
//! ```
//!
//! [`Image::decide`] decides a list of periods without a monitor, and [`Image::decide_bytes`] a
//! stored trace, the bytes of records of either form. Both read no further than the period that
//! decides:
//!
//! ```
//! # use monitor::{Action, Clause, Contract, Image, Party, Period, Refusal};
//! # fn main() -> Result<(), Refusal> {
//! # const VALUES: Action = Action::new(0).unwrap();
//! # let image = Image::compile(Contract::from(Clause::duty(Party::One, VALUES).repeat()))?;
//! # let (kept, missed) = (Period::from_masks(1, 1), Period::default());
//! # let stored_trace = [kept, missed, kept].map(Period::to_bytes).concat();
//! let decided = image.decide_bytes(&stored_trace)?;
//! println!("{} after {} periods", decided.outcome, decided.records);
//! # assert_eq!((decided.outcome, decided.records), (monitor::Outcome::Violated, 2));
//! # Ok(())
//! # }
//! ```
//!
//! [`join`] makes the periods from two logs, one of each party, which are lists of [`LogRecord`]s;
//! [`join_bytes`] does so from stored ones:
//!
//! ```
//! # use monitor::{join_bytes, Action, Clause, Contract, Image, Party, Refusal};
//! # fn main() -> Result<(), Refusal> {
//! # const VALUES: Action = Action::new(0).unwrap();
//! # let image = Image::compile(Contract::from(Clause::duty(Party::One, VALUES).repeat()))?;
//! # let plugin_log = *b"TL\x01\0\x01\0\0\0TL\x02\0\x01\0\0\0";
//! # let host_log = *b"TL\x01\0\x01\0\0\0TL\x03\0\x01\0\0\0";
//! let periods = join_bytes(&plugin_log, &host_log)?;
//! let decided = image.decide(&periods)?;
//! println!("{} after {} of {} periods", decided.outcome, decided.records, periods.len());
//! # assert_eq!((decided.blame, decided.records), (Some(monitor::Blame::Two), 2));
//! # assert_eq!(periods.len(), 3);
//! # Ok(())
//! # }
//! ```
//!
//! Buffers have the right size by construction: only bytes that come from elsewhere can be refused
//! for their length, and a log of too many records. [`calls`] has the six calls themselves, on byte
//! slices. The crate needs no `std`, only `alloc`; the archive is x86-64 code.

#![no_std]
#![deny(unsafe_code)]
#![warn(missing_docs, clippy::undocumented_unsafe_blocks)]

extern crate alloc;

mod answers;
#[allow(unsafe_code)]
pub mod calls;
mod contract;
mod image;
mod logs;
mod monitor;
mod period;
mod refusal;
mod reply;
mod tree;

pub use crate::contract::{Action, Contract, Owner, Party, Record, Window};
pub use crate::image::Image;
pub use crate::logs::{join, join_bytes, LogRecord};
pub use crate::monitor::Monitor;
pub use crate::period::Period;
pub use crate::refusal::{Fault, Refusal};
pub use crate::reply::{Blame, DecideReply, Outcome, Reply, RunReply, Verdict};
pub use crate::tree::{Clause, Expression};
