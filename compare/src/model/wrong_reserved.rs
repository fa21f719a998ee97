//! Reserved lots that are taken for seated ones, or their seats for free ones:
//! not as document 02, #105, says.

use super::{Lot, Model, State, NO_CONTACT};
use crate::call::{Answer, Call};

#[derive(Clone, Copy, PartialEq, Eq, Debug)]
pub(crate) enum WrongReserved {
    Counted,
    FoundFrom,
    Holds,
    MayLeave,
    LinkRead,
    IsContact,
    /// The first lot that is seated beside reserved ones needs one.
    NeedsContact,
    SeatFree,
    NumberFree,
    NotShown,
}

impl Model {
    /// What a model with a fault, which is taken out, makes of a call.
    pub(super) fn with_reserved(&mut self, wrong: WrongReserved, call: Call) -> Answer {
        let seated = Some(State::Staying);
        match (wrong, call) {
            (WrongReserved::Counted, Call::ReadCounts) => self.as_if(seated, |_| true, call),
            (WrongReserved::FoundFrom, Call::Find { seat, number }) => {
                self.find_from_reserved(seat, number)
            }
            (WrongReserved::Holds, Call::Find { number, .. }) => {
                let answer = call.on_model(self);
                self.reserved_holder(answer, number)
            }
            (WrongReserved::MayLeave, Call::Leave { seat })
            | (WrongReserved::LinkRead, Call::ReadLink { seat, .. }) => {
                self.as_if(seated, |lot| lot == seat, call)
            }
            (
                WrongReserved::IsContact,
                Call::Join { seat, contact, .. } | Call::Confirm { seat, contact },
            ) => self.as_if(seated, |lot| lot == contact && lot != seat, call),
            (WrongReserved::NeedsContact, Call::Join { seat, .. } | Call::Confirm { seat, .. }) => {
                self.as_if(seated, |lot| lot != seat, call)
            }
            (WrongReserved::SeatFree, Call::Join { seat, .. } | Call::Reserve { seat, .. })
            | (WrongReserved::NotShown, Call::ReadLot { seat }) => {
                self.as_if(None, |lot| lot == seat, call)
            }
            (WrongReserved::NumberFree, Call::Join { seat, .. } | Call::Reserve { seat, .. }) => {
                self.as_if(None, |lot| lot != seat, call)
            }
            _ => call.on_model(self),
        }
    }

    /// Makes the call as if some of the reserved lots were in another state, or
    /// away. Those that it leaves alone are as they were.
    fn as_if(&mut self, seen: Option<State>, which: impl Fn(u8) -> bool, call: Call) -> Answer {
        let lots = self.lots.clone();
        let seats = (0..).zip(&mut self.lots);
        for (_, lot) in seats.filter(|(seat, _)| which(*seat)) {
            let reserved = lot.as_mut().filter(|lot| !lot.is_seated());
            match (reserved, seen) {
                (Some(lot), Some(state)) => lot.state = state,
                (Some(_), None) => *lot = None,
                (None, _) => {}
            }
        }
        let seen = self.lots.clone();
        let answer = call.on_model(self);
        for (seat, lot) in lots.into_iter().enumerate() {
            if self.lots[seat] == seen[seat] {
                self.lots[seat] = lot;
            }
        }
        answer
    }

    /// A walk from a lot without links ends where it starts.
    fn find_from_reserved(&mut self, seat: u8, number: u64) -> Answer {
        match self.reserved_lot(seat) {
            Some(lot) if self.is_settled() => {
                let holder = Some(seat).filter(|_| lot.number <= number);
                Answer::accepted([holder.unwrap_or(NO_CONTACT).into(), 0, 0, 0, 0])
            }
            _ => Call::Find { seat, number }.on_model(self),
        }
    }

    /// The reserved lot with the largest number not above the scanned one, if that
    /// is above the holder's.
    fn reserved_holder(&self, mut answer: Answer, scanned: u64) -> Answer {
        let holder = self.lot_at(answer.values[0] as u8).map(|lot| lot.number);
        let reserved = self.taken().filter(|(_, lot)| !lot.is_seated());
        let between = reserved.filter(|(_, lot)| {
            let number = Some(lot.number);
            number > holder && number <= Some(scanned)
        });
        let nearest = between.max_by_key(|(_, lot)| lot.number);
        if let (0, Some((seat, _))) = (answer.refusal, nearest) {
            answer.values[0] = seat.into();
        }
        answer
    }

    pub(super) fn reserved_lot(&self, seat: u8) -> Option<&Lot> {
        self.lot_at(seat).filter(|lot| !lot.is_seated())
    }
}
