//! The check: whether every component of the members is the graph of its lots.
//!
//! Constraints 1 to 6 say the same (`graph` tests that). They are tested from link
//! to link, without a table: the links of members name members that link back, and
//! a right link above level 0 is the first lot to the right on the level below that
//! has the next bit. How many components there are is nowhere asked.

use super::layout::*;
use super::record::Record;
use crate::graph::{Side, BITS, LEVELS, SEATS, SIDES};
use crate::rules::Entries;

/// Bit s of `members` is set if the lot on seat s is one.
pub fn are_graphs(record: Record, members: u64) -> bool {
    let lots = || (0..SEATS as u8).filter(|lot| is_in(members, *lot));
    lots().all(|lot| links_back(record, members, lot))
        && lots().all(|lot| right_links_follow(record, lot))
}

#[inline]
fn is_in(members: u64, seat: u8) -> bool {
    members >> (seat % SEATS as u8) & 1 == 1
}

#[inline]
fn link(record: Record, seat: u8, level: usize, side: Side) -> u8 {
    record.entry(seat)[link_at(level, side as usize)]
}

fn links_back(record: Record, members: u64, lot: u8) -> bool {
    (0..LEVELS).all(|level| {
        SIDES.iter().all(|side| {
            let other = link(record, lot, level, *side);
            other == NO_LINK
                || is_in(members, other) && link(record, other, level, side.away()) == lot
        })
    })
}

/// Where links have their links back, no lot is passed twice on a level: a run
/// passes only lots that have the other bit. A link to the next lot of the
/// level below needs no run: the record is sound, so that lot has the bit.
fn right_links_follow(record: Record, lot: u8) -> bool {
    (0..BITS).all(|level| {
        let above = link(record, lot, level + 1, Side::Right);
        let mut ahead = link(record, lot, level, Side::Right);
        if ahead == above {
            return true;
        }
        let next_bit = |seat| record.vector(seat) >> (BITS - 1 - level) & 1;
        let bit = next_bit(lot);
        while ahead != NO_LINK && next_bit(ahead) != bit {
            ahead = link(record, ahead, level, Side::Right);
        }
        above == ahead
    })
}
