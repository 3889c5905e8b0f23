//! The plugin contract monitor a second time, from document 01 and document 02's "Duties with a
//! deadline", "Duties that both parties own", "Stop reading once it is decided", "Thirty-two
//! actions", "Join the two parties' logs" and "An ending that may begin in any period", and not
//! from its code, to compare the monitor with.
//!
//! Quotations in the comments are these documents' words. The meaning of a contract is here twice:
//! [`definition`] decides whole lists of periods as the text says it, slowly; [`monitor`] goes from
//! period to period and keeps what is left to read. Nothing here makes the rows of an image:
//! "which rows compile picks is free".

#![forbid(unsafe_code)]

pub mod calls;
pub mod clause;
pub mod contract;
pub mod definition;
pub mod image;
pub mod logs;
pub mod monitor;
pub mod reading;
pub mod records;
pub mod state;
pub mod watch;

pub use clause::{Clause, Decision, Expression, Owner, Shape, Verdict};
pub use monitor::Monitor;
pub use records::{Form, Party, Period, Refusal};
