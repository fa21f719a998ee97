//! What calls meet of merges (document 02, #107): told apart by the call, its answer and
//! the record before it.

mod accepted;
mod between;

use crate::before::{Before, Clearing, Pending, FREE, LEAVING, RESERVED, STAYING};
use crate::call::{Answer, Call};
use crate::graph::SEATS;
use std::collections::BTreeSet;

pub use accepted::Merge;
pub use between::Between;

#[derive(Clone, Copy, PartialEq, Eq, PartialOrd, Ord, Debug)]
pub enum Met {
    /// A merge, by its refusal or 0, in phase open or clearing, with something pending
    /// or not.
    Answered(u8, Clearing, Pending),
    /// The first of two rows that both apply.
    Before(u8, u8),
    /// 3 by one of the two seats alone.
    NoSeat(Which),
    /// 8 by one of the two seats alone, in that state.
    EmptySeat(Which, u8),
    /// 8 of a seat in that state, named twice.
    EmptyTwice(u8),
    /// 15 of a lot in that state.
    SameLot(u8),
    Merge(Merge),
    /// A call while a MEET between two components by links is pending.
    Between(Between),
}

#[derive(Clone, Copy, PartialEq, Eq, PartialOrd, Ord, Debug)]
pub enum Which {
    First,
    Second,
}

/// All that can be met.
pub fn all() -> BTreeSet<Met> {
    let (open, clearing) = (false, true);
    let rows = [
        (0, open),
        (3, open),
        (3, clearing),
        (7, clearing),
        (8, open),
        (15, open),
    ];
    let mut all = BTreeSet::new();
    for pending in [false, true] {
        all.extend(rows.map(|(refusal, phase)| Met::Answered(refusal, phase, pending)));
    }
    let both = [(3, 7), (3, 8), (3, 15), (7, 8), (7, 15), (8, 15)];
    all.extend(both.map(|(first, later)| Met::Before(first, later)));
    for which in [Which::First, Which::Second] {
        all.insert(Met::NoSeat(which));
        all.extend([FREE, RESERVED].map(|state| Met::EmptySeat(which, state)));
    }
    all.extend([FREE, RESERVED].map(Met::EmptyTwice));
    all.extend([STAYING, LEAVING].map(Met::SameLot));
    all.extend(Merge::all().map(Met::Merge));
    all.extend(Between::all().map(Met::Between));
    all
}

/// What a call of a sound record met.
pub fn met(call: Call, answer: Answer, record: &[u8]) -> Vec<Met> {
    let before = Before { record };
    if [1, 2].contains(&answer.refusal) {
        return Vec::new();
    }
    let between = Between::of(call, answer, before);
    let mut met: Vec<Met> = between.into_iter().map(Met::Between).collect();
    if let Call::Merge { first, second } = call {
        met.extend(merge(first, second, answer.refusal, before));
    }
    met
}

fn merge(first: u8, second: u8, refusal: u8, before: Before) -> Vec<Met> {
    let answered = Met::Answered(refusal, before.is_clearing(), before.has_pending());
    let mut met = vec![answered];
    if refusal == 0 {
        met.extend(Merge::of(first, second, before).into_iter().map(Met::Merge));
        return met;
    }
    let is_seat = |seat: u8| usize::from(seat) < SEATS;
    let is_empty = |seat: u8| is_seat(seat) && !before.is_seated(seat);
    let one_alone = |applies: &dyn Fn(u8) -> bool| match [first, second].map(applies) {
        [true, false] => Some((Which::First, first)),
        [false, true] => Some((Which::Second, second)),
        _ => None,
    };
    let later = [
        (7, before.is_clearing()),
        (8, is_empty(first) || is_empty(second)),
        (15, first == second),
    ];
    let later = later.into_iter().skip_while(|(row, _)| *row <= refusal);
    let applying = later.filter(|(_, applies)| *applies);
    met.extend(applying.map(|(row, _)| Met::Before(refusal, row)));
    match refusal {
        3 => {
            let one = one_alone(&|seat| !is_seat(seat));
            met.extend(one.map(|(which, _)| Met::NoSeat(which)));
        }
        8 if first == second => met.push(Met::EmptyTwice(before.state(first))),
        8 => {
            let one = one_alone(&is_empty);
            let empty = one.map(|(which, seat)| Met::EmptySeat(which, before.state(seat)));
            met.extend(empty);
        }
        15 => met.push(Met::SameLot(before.state(first))),
        _ => {}
    }
    met
}
