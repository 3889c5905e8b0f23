//! Random inputs of the six calls and of `watch`, and the comparison of the monitor with the
//! reference on them.

#![forbid(unsafe_code)]

pub mod cases;
pub mod check;
pub mod contracts;
pub mod guard;
pub mod images;
mod joins;
mod logs;
pub mod random;
pub mod report;
pub mod short;
pub mod short_logs;
pub mod shrink;
pub mod small;
mod stretches;
mod traces;
pub mod watch;
