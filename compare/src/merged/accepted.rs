//! Accepted merges. Components are those before them, by links and pending MEETs.

use super::Which;
use crate::before::{Before, LEAVING, RESERVED};
use crate::graph::{BITS, SEATS};
use crate::joined::Joined;
use crate::lent::place::GOING;
use crate::model::{shared_bits, Message};
use std::collections::BTreeSet;

#[derive(Clone, Copy, PartialEq, Eq, PartialOrd, Ord, Debug)]
pub enum Merge {
    /// Of two components, with others beside them or not.
    OfTwo,
    OfTwoOfSeveral,
    /// Of two that are lots alone, of a lot alone and several, of several and several.
    Alone,
    AloneAndSeveral,
    SeveralAndSeveral,
    /// Of two that are several each: all numbers of one are above those of the other,
    /// or not.
    Apart,
    Interleaved,
    /// Within a component: of lots that links join, of lots that only pending MEETs do.
    Within,
    WithinByMeetings,
    /// The second is the first's link at level 0.
    Linked,
    /// The same MEET is pending, or the one to the second about the first.
    Again,
    TheOtherWay,
    /// A message of this kind is pending.
    Beside(u8),
    BesideReserved,
    /// One of the two lots alone is leaving, or both are.
    Leaver(Which),
    Leavers,
    /// The first lot has the larger number, or the smaller one.
    Above,
    Below,
    /// The first seat and the last.
    Seat(u8),
    /// The two share no bit, or all.
    Shares(u32),
}

const LAST: u8 = SEATS as u8 - 1;
const ALL_BITS: u32 = BITS as u32;

impl Merge {
    pub fn all() -> impl Iterator<Item = Merge> {
        use Merge::*;
        let others = [
            OfTwo,
            OfTwoOfSeveral,
            Alone,
            AloneAndSeveral,
            SeveralAndSeveral,
            Apart,
            Interleaved,
            Within,
            WithinByMeetings,
            Linked,
            Again,
            TheOtherWay,
            BesideReserved,
            Leaver(Which::First),
            Leaver(Which::Second),
            Leavers,
            Above,
            Below,
            Seat(0),
            Seat(LAST),
            Shares(0),
            Shares(ALL_BITS),
        ];
        (1..=3).map(Beside).chain(others)
    }

    pub fn of(first: u8, second: u8, before: Before) -> Vec<Merge> {
        let joined = Joined::of(before, |_| true);
        let (one, other) = (joined.to(first), joined.to(second));
        let mut met = match one == other {
            true => vec![within(first, second, before)],
            false => of_two(one, other, joined.components().len(), before),
        };
        let leaves = [first, second].map(|seat| before.state(seat) == LEAVING);
        met.extend(match leaves {
            [true, true] => Some(Merge::Leavers),
            [true, false] => Some(Merge::Leaver(Which::First)),
            [false, true] => Some(Merge::Leaver(Which::Second)),
            _ => None,
        });
        met.push(match before.number(first) > before.number(second) {
            true => Merge::Above,
            false => Merge::Below,
        });
        let is_pending = |to, about| {
            let mut meetings = before.meetings();
            meetings.any(|meeting| meeting == Message::meet(to, about, 0))
        };
        let shared = shared_bits(before.vector(first), before.vector(second));
        let is_named = |seat: u8| [first, second].contains(&seat);
        let level_0 = &before.links(first)[..2];
        let some = [
            (Merge::Linked, level_0.contains(&second)),
            (Merge::Again, is_pending(first, second)),
            (Merge::TheOtherWay, is_pending(second, first)),
            (Merge::BesideReserved, before.count(RESERVED) > 0),
            (Merge::Seat(0), is_named(0)),
            (Merge::Seat(LAST), is_named(LAST)),
            (Merge::Shares(0), shared == 0),
            (Merge::Shares(ALL_BITS), shared == ALL_BITS),
        ];
        met.extend(some.into_iter().filter(|(_, is)| *is).map(|(case, _)| case));
        // The kinds of phase open.
        let kinds: BTreeSet<u8> = before.pending(GOING).map(|message| message.kind).collect();
        met.extend(kinds.into_iter().map(Merge::Beside));
        met
    }
}

fn within(first: u8, second: u8, before: Before) -> Merge {
    let by_links = Joined::by_links(before, |_| true);
    match by_links.to(first) == by_links.to(second) {
        true => Merge::Within,
        false => Merge::WithinByMeetings,
    }
}

fn of_two(one: u64, other: u64, components: usize, before: Before) -> Vec<Merge> {
    let mut met = vec![match components {
        2 => Merge::OfTwo,
        _ => Merge::OfTwoOfSeveral,
    }];
    let alone = [one, other].map(|set| set.count_ones() == 1);
    met.push(match alone {
        [true, true] => Merge::Alone,
        [false, false] => Merge::SeveralAndSeveral,
        _ => Merge::AloneAndSeveral,
    });
    if alone == [false, false] {
        let numbers = |set: u64| {
            let lots = before.seated().filter(move |seat| set >> seat & 1 == 1);
            lots.map(move |seat| before.number(seat))
        };
        let is_below = |one, other| numbers(one).max() < numbers(other).min();
        met.push(match is_below(one, other) || is_below(other, one) {
            true => Merge::Apart,
            false => Merge::Interleaved,
        });
    }
    met
}
