//! What the monitor costs: the inputs that are timed, how they are timed, and the sections of the
//! report.

#![deny(unsafe_code)]
#![warn(clippy::undocumented_unsafe_blocks)]

pub mod compile;
pub mod contracts;
pub mod deadlines;
pub mod decide;
mod inputs;
pub mod join;
mod merge;
pub mod periods;
#[allow(unsafe_code)]
mod plain;
pub mod product;
pub mod rows;
pub mod steps;
pub mod timing;
pub mod tree;
pub mod watch;

pub use inputs::Input;
