//! A second program written from documents 01 and 02 alone, to compare with
//! `lots`.
//!
//! - [`model`] is the record: lots, links, pending messages and the calls.
//! - [`graph`] is what the links must come to: the lists of the members, within each
//!   component, and Constraints 1 to 6 of document 000.
//! - [`lent`] is the calls on lent bytes; [`call`] is a call with its answer, and
//!   [`inputs`] makes records and calls from a seed; [`unsettled`] tells apart
//!   why a search is refused, [`reserved`] what calls meet of reserved lots,
//!   [`crashed`] what they meet of crashes and of several components, [`merged`] of
//!   merges.
//! - [`text`] is the command language of the program `lots`.
//! - [`roster`] is document 01's roster with its table of refusals; [`scan`] is
//!   what a search has to answer, by numbers and states.
//! - [`selfcheck`] runs a script or a list of calls on the model and holds every
//!   answer against the roster and the graph.
//! - [`script`] makes scripts, fixed ones and from a seed; [`reach`] says what
//!   they reach, [`shrink`] makes a failing one small, [`child`] runs another
//!   program on one. [`mod@list`] makes lists of calls in the same two ways.
//!
//! ```
//! use compare::model::Model;
//!
//! let mut model = Model::open();
//! model.join(0, 100, 0, 255).unwrap();
//! model.join(1, 200, 128, 0).unwrap();
//! model.settle();
//! assert!(model.check());
//! assert_eq!(model.find(0, 250).unwrap().holder, Some(1));
//! ```

mod before;
pub mod call;
pub mod child;
pub mod crashed;
pub mod graph;
pub mod inputs;
mod joined;
pub mod lent;
pub mod list;
pub mod merged;
pub mod model;
pub mod random;
pub mod reach;
pub mod reserved;
pub mod roster;
mod rules;
pub mod scan;
pub mod script;
mod search;
pub mod selfcheck;
pub mod shrink;
pub mod text;
pub mod unsettled;

#[cfg(test)]
mod cases;
#[cfg(test)]
mod faults;
#[cfg(test)]
mod lent_agrees;
