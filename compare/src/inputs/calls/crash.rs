//! Sets of seats that crash: mostly of seated lots, few or many of them.

use super::{is_reserved, is_seated, Chooser};
use crate::graph::SEATS;
use crate::inputs::{entry_at, state};
use crate::lent::place::{ENTRY, LINKS_AT, NUMBER_AT, VECTOR_AT};

impl Chooser<'_> {
    pub(super) fn crashed(&mut self) -> u64 {
        let named = match self.random.below(32) {
            0 | 1 => 0,
            2 => self.seated(),
            3 | 4 => self.seated() & self.random.next(),
            5..8 => self.seated() & self.random.next() & self.random.next(),
            8 => return self.random.next(),
            9..14 => self.some(is_seated),
            14..17 => self.some(is_seated) | self.some(is_seated),
            17..24 => self.in_a_row(),
            _ => self.ends_across(),
        };
        // One in some names a seat that has no lot.
        match self.random.below(24) {
            0 => named | self.some(|state| state == 0),
            1 | 2 => named | self.some(is_reserved),
            _ => named,
        }
    }

    fn seated(&self) -> u64 {
        let seats = (0..SEATS).filter(|&seat| is_seated(state(self.bytes, seat)));
        seats.fold(0, |set, seat| set | 1 << seat)
    }

    /// One seat whose state is wanted, if there is one.
    fn some(&mut self, wanted: impl Fn(u8) -> bool) -> u64 {
        self.some_seat(wanted).map_or(0, |seat| 1 << seat)
    }

    /// Some lots one after the other by their numbers, so that those on one side of
    /// them may be cut off from those on the other.
    fn in_a_row(&mut self) -> u64 {
        let mut seats: Vec<u8> = in_set(self.seated()).collect();
        seats.sort_by_key(|&seat| number(self.bytes, seat));
        let start = self.random.below(seats.len() + 1);
        let most = 1 + self.random.below(4);
        let row = seats.iter().skip(start).take(most);
        row.fold(0, |set, seat| set | 1 << seat)
    }

    /// The lots below one of them that have a link to it or past it: those that are
    /// left on both sides are cut off from each other.
    fn ends_across(&mut self) -> u64 {
        let Some(from) = self.some_seat(is_seated) else {
            return 0;
        };
        let bytes = self.bytes;
        let is_below = |seat: u8| number(bytes, seat) < number(bytes, from);
        let across = in_set(self.seated()).filter(|&seat| {
            let at = entry_at(seat.into());
            let mut links = bytes[at + LINKS_AT..at + ENTRY].iter();
            is_below(seat) && links.any(|&link| is_seat(link) && !is_below(link))
        });
        across.fold(0, |set, seat| set | 1 << seat)
    }
}

fn is_seat(link: u8) -> bool {
    usize::from(link) < SEATS
}

/// The seats of a set, ascending.
fn in_set(set: u64) -> impl Iterator<Item = u8> {
    (0..SEATS as u8).filter(move |seat| set >> seat & 1 == 1)
}

/// As bytes, which are in the order of the numbers.
fn number(bytes: &[u8], seat: u8) -> &[u8] {
    let at = entry_at(seat.into());
    &bytes[at + NUMBER_AT..at + VECTOR_AT]
}
