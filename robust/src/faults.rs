//! Faults put into a library, each caught. The faulty ones here are the calls on
//! lent bytes with something wrong; the real library takes no part.

#[macro_use]
mod on_bytes;

mod behaviour;
mod blind;
mod bundles;
mod crashes;
mod holders;
mod meetings;
mod merges;
mod reservations;
mod searches;

use crate::judge::{Difference, Judge, Memory};
use crate::report::shrunk;
use crate::round::{self, opened};
use crate::sys::{Make, Outcome};
use crate::tally::Tally;
use compare::call::Call;
use compare::graph::{components, links_within};
use compare::lent::from_bytes;
use compare::lent::place::{link_at, ENTRIES_AT, ENTRY, NO_LINK};
use std::ops::Range;

/// Rounds in which a fault must show: as many as a default run has.
const ROUNDS: u64 = 2_000;

/// The first difference that a library shows, and the calls before it.
fn caught(make: Make) -> Option<(Difference, u64)> {
    let mut judge = Judge::new(make, Memory::Guarded);
    let mut tally = Tally::default();
    let failure = (0..ROUNDS).find_map(|index| {
        let ran = round::run(&mut judge, &mut tally, 1, index);
        ran.err()
    })?;
    Some((failure.difference, tally.total()))
}

/// A library without a fault.
fn right(memory: &mut [u8], record: Range<usize>, call: Call, _: u64) -> Outcome {
    Outcome {
        answer: call.on_bytes(&mut memory[record]),
        beside: false,
    }
}

/// Sets the links of the members of a sound record as in the graph of each component,
/// at some levels.
fn put_right(bytes: &mut [u8], levels: Range<usize>) {
    let model = from_bytes(bytes).expect("the record is sound");
    let members = model.members();
    let components = components(&members, &model.member_links());
    for (member, links) in members.iter().zip(links_within(&members, &components)) {
        for level in levels.clone() {
            for (side, link) in links[level].into_iter().enumerate() {
                let at = ENTRIES_AT + ENTRY * usize::from(member.seat) + link_at(level, side);
                bytes[at] = link.unwrap_or(NO_LINK);
            }
        }
    }
}

#[test]
fn no_fault_no_difference() {
    let mut judge = Judge::new(right, Memory::Guarded);
    let mut tally = Tally::default();
    for index in 0..20 {
        round::run(&mut judge, &mut tally, 1, index).unwrap();
    }
}

/// Says that nothing is pending when one message is.
fn last_message_overlooked(
    memory: &mut [u8],
    record: Range<usize>,
    call: Call,
    fill: u64,
) -> Outcome {
    let mut outcome = right(memory, record, call, fill);
    if call == Call::ReadCounts {
        let pending = &mut outcome.answer.values[2];
        *pending = pending.saturating_sub(1);
    }
    outcome
}

#[test]
fn a_difference_is_made_small() {
    let mut judge = Judge::new(last_message_overlooked, Memory::Guarded);
    let mut tally = Tally::default();
    let ran = |index| round::run(&mut judge, &mut tally, 1, index).err();
    let failure = (0..ROUNDS).find_map(ran).unwrap();
    let small = shrunk(&mut judge, &failure);
    let differ = small.record.iter().zip(opened());
    let differ = differ.filter(|(byte, opened)| **byte != *opened).count();
    // Two states, a number other than 0 and the bit of the message; the phase, if
    // it is one of clearing; and two vectors that share the level's bits, since
    // bytes are made smaller one by one.
    assert!(differ <= 7, "{differ}");
}
