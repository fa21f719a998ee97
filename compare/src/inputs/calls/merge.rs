//! Pairs of lots that are merged: mostly of two components, if there are several.

use super::{is_reserved, is_seated, Chooser, EDGES};
use crate::before::Before;
use crate::call::Call;
use crate::inputs::state;
use crate::joined::Joined;

impl Chooser<'_> {
    pub(super) fn merge(&mut self) -> Call {
        let (first, second) = match self.random.below(28) {
            0 => (self.random.pick(&EDGES), self.seat()),
            1 => (self.seat(), self.random.pick(&EDGES)),
            2 | 3 => self.twice(),
            4 | 5 => (self.mostly_empty(), self.seat()),
            6 | 7 => (self.seat(), self.mostly_empty()),
            8 | 9 => self.met_already(),
            10..13 => self.two_lots(|_, _| true),
            13..16 => self.across(Joined::by_links),
            _ => self.across(Joined::of),
        };
        Call::Merge { first, second }
    }

    /// One seat, mostly of a seated lot.
    fn twice(&mut self) -> (u8, u8) {
        let seat = match self.random.below(4) {
            0 => self.mostly_empty(),
            _ => self.seat(),
        };
        (seat, seat)
    }

    fn mostly_empty(&mut self) -> u8 {
        let empty = match self.random.below(2) {
            0 => self.some_seat(is_reserved),
            _ => self.some_seat(|state| state == 0),
        };
        empty.unwrap_or_else(|| self.seat())
    }

    /// The two of a pending message, mostly a MEET, in either order.
    fn met_already(&mut self) -> (u8, u8) {
        let bytes = self.bytes;
        let meetings = Before { record: bytes }.meetings();
        let some = self.random.below(8);
        match meetings.take(some + 1).last() {
            Some(meeting) if self.random.one_in(2) => (meeting.to, meeting.about),
            Some(meeting) => (meeting.about, meeting.to),
            None => self.two_lots(|_, _| true),
        }
    }

    /// Lots of two components, told apart as given; any two if there is but one.
    fn across(&mut self, joined: fn(Before, fn(u8) -> bool) -> Joined) -> (u8, u8) {
        let joined = joined(Before { record: self.bytes }, |_| true);
        self.two_lots(|first, second| joined.to(first) != joined.to(second))
    }

    /// Two seated lots that fit, if there are some; else any two, or one twice.
    fn two_lots(&mut self, fit: impl Fn(u8, u8) -> bool) -> (u8, u8) {
        let Some(first) = self.some_seat(is_seated) else {
            return (self.seat(), self.seat());
        };
        let bytes = self.bytes;
        let is_other = |seat: u8| seat != first && is_seated(state(bytes, seat.into()));
        let fitting = self.some_seat_that(|seat| is_other(seat) && fit(first, seat));
        let second = fitting.or_else(|| self.some_seat_that(is_other));
        (first, second.unwrap_or(first))
    }
}
