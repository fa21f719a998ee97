//! Calls through the static library, held against `compare::lent` and, a sample
//! of them, against the model.
//!
//! - [`sys`] is the C interface, and a call made through it.
//! - [`judge`] makes a call on both sides and says what differs.
//! - [`round`] is a record with a run of calls on it, from a seed.
//! - [`tally`] counts the answers that were met, and names those that were not.
//! - [`report`] makes a difference small and writes it down.

pub mod judge;
pub mod report;
pub mod round;
pub mod sys;
pub mod tally;

#[cfg(test)]
mod faults;
