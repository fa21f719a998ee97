//! A record of lots in lent memory, whose calls are proved.
//!
//! The record holds 64 seats, a phase and the pending messages. Lots join, at once
//! or reserved first, leave or crash, components that they form are merged, messages
//! between them are delivered in any order, and a scanned number is looked up from any
//! seated lot. The work is done by the static library `cewandog`, written and proved
//! in Rattle; this crate lends it bytes and gives its answers types. It allocates
//! nothing.
//!
//! ```
//! use lots_record::{Found, Record, Refusal};
//!
//! // Lots 100 and 200 on two scales; the second joins through the first.
//! let mut record = Record::new();
//! record.join(0, 100, 0b0000_0000, None)?;
//! record.join(1, 200, 0b1000_0000, Some(0))?;
//! assert_eq!(record.counts()?.pending, 1);
//!
//! // The lot on seat 0 learns of the one on seat 1, and both have more to say.
//! let meet = record.pending_messages()?.next().unwrap();
//! assert_eq!(meet.to_string(), "MEET to 0 about 1 level 0 side 0");
//! record.deliver(meet)?;
//! assert_eq!(record.counts()?.pending, 2);
//!
//! // A scan waits for the last message. A refused call changes nothing.
//! assert_eq!(record.find(0, 250), Err(Refusal::Unsettled));
//! record.deliver_all()?;
//! assert_eq!(record.find(0, 250)?, Found { holder: Some(1), hops: 1 });
//! # Ok::<(), Refusal>(())
//! ```
//!
//! # Threads
//!
//! Calls on different records may run at once; on one record readings alone, which are
//! the calls that take `&self`: the compiler sees to it.
//!
//! # Panics
//!
//! An answer that the library is proved never to give (a refusal number above
//! 15, a state other than 1 to 3, a phase other than 0 and 1) ends in a panic:
//! then what is linked is not the library that this crate was written for.

#![no_std]
#![warn(missing_docs)]
#![warn(clippy::undocumented_unsafe_blocks)]

mod lots;
mod names;
mod pending;
mod reading;
mod record;
mod refusal;
#[doc(hidden)]
pub mod sys;

pub use lots::Lots;
pub use names::{Kind, Phase, Side, State};
pub use pending::PendingMessages;
pub use reading::{Counts, Found, Lot, Message};
pub use record::Record;
pub use refusal::Refusal;

/// The bytes of a record.
///
/// ```
/// use lots_record::{Record, SIZE};
///
/// assert_eq!(Record::new().as_bytes().len(), SIZE);
/// ```
pub const SIZE: usize = 20_257;

/// How many seats there are: they are 0 to 63.
///
/// ```
/// use lots_record::{Record, Refusal, SEATS};
///
/// assert_eq!(Record::new().join(SEATS, 100, 0, None), Err(Refusal::NoSuchSeat));
/// assert_eq!(Record::new().join(SEATS - 1, 100, 0, None), Ok(()));
/// ```
pub const SEATS: u8 = 64;

/// How many levels of links there are: they are 0 to 8.
///
/// ```
/// use lots_record::{Record, Refusal, Side, LEVELS};
///
/// let mut record = Record::new();
/// record.join(0, 100, 0, None)?;
/// assert_eq!(record.link(0, LEVELS, Side::Left), Err(Refusal::NoSuchLevel));
/// assert_eq!(record.link(0, LEVELS - 1, Side::Left), Ok(None));
/// # Ok::<(), Refusal>(())
/// ```
pub const LEVELS: u8 = 9;

/// The version of the layout: records of one layout version have the same bytes for the
/// same meaning.
///
/// A record does not hold this number: who stores records for a later version of the
/// library stores it beside them.
///
/// ```
/// assert_eq!(lots_record::LAYOUT_VERSION, 1);
/// ```
pub const LAYOUT_VERSION: u32 = 1;

/// Document 01's number for no seat: no contact, no link, no holder.
const NO_SEAT: u8 = 255;

/// The example of README.md, for `cargo test`.
#[cfg(doctest)]
#[doc = include_str!("../README.md")]
struct Readme;
