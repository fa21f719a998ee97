//! Joins, reservations, confirmations and returns: mostly accepted ones, if there
//! are any.

use super::{is_reserved, is_seated, Chooser, EDGES};
use crate::call::Call;
use crate::model::NO_CONTACT;

/// Which argument of a call is likely one that refuses it.
#[derive(Clone, Copy, PartialEq, Eq)]
enum Unlikely {
    Seat,
    Number,
    Contact,
    Nothing,
}

impl Chooser<'_> {
    pub(super) fn join(&mut self) -> Call {
        let unlikely = self.unlikely();
        Call::Join {
            seat: self.free_seat(unlikely),
            number: self.unused_number(unlikely),
            vector: self.random.pick(&self.pools.vectors),
            contact: self.contact(unlikely),
        }
    }

    pub(super) fn reserve(&mut self) -> Call {
        let unlikely = self.unlikely();
        Call::Reserve {
            seat: self.free_seat(unlikely),
            number: self.unused_number(unlikely),
            vector: self.random.pick(&self.pools.vectors),
        }
    }

    /// Its own seat, too, may be the contact.
    pub(super) fn confirm(&mut self) -> Call {
        let unlikely = self.unlikely();
        let seat = self.mostly_reserved();
        let contact = match unlikely {
            Unlikely::Contact if self.random.one_in(4) => seat,
            _ => self.contact(unlikely),
        };
        Call::Confirm { seat, contact }
    }

    pub(super) fn mostly_reserved(&mut self) -> u8 {
        let reserved = match self.random.below(12) {
            0 => Some(self.random.pick(&EDGES)),
            1 | 2 => None,
            _ => self.some_seat(is_reserved),
        };
        reserved.unwrap_or_else(|| self.seat())
    }

    fn unlikely(&mut self) -> Unlikely {
        match self.random.below(8) {
            0 => Unlikely::Seat,
            1 | 2 => Unlikely::Contact,
            3 => Unlikely::Number,
            _ => Unlikely::Nothing,
        }
    }

    fn free_seat(&mut self, unlikely: Unlikely) -> u8 {
        match self.some_seat(|state| state == 0) {
            Some(seat) if unlikely != Unlikely::Seat => seat,
            _ if self.random.one_in(3) => self.random.pick(&EDGES),
            _ => self.seat(),
        }
    }

    fn unused_number(&mut self, unlikely: Unlikely) -> u64 {
        match unlikely {
            Unlikely::Number => self.number(),
            _ => self.random.pick(&self.pools.numbers),
        }
    }

    /// Of a seated lot, or none if there is none; else a reserved or a free seat, any,
    /// or none.
    fn contact(&mut self, unlikely: Unlikely) -> u8 {
        let contact = match (unlikely, self.random.below(4)) {
            (Unlikely::Contact, 0) => self.some_seat(is_reserved),
            (Unlikely::Contact, 1) => self.some_seat(|state| state == 0),
            (Unlikely::Contact, 2) => Some(self.seat()),
            (Unlikely::Contact, _) => None,
            _ => self.some_seat(is_seated),
        };
        contact.unwrap_or(NO_CONTACT)
    }
}
