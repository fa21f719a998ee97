//! The ways to a seat: a join in one step, or a reservation that is confirmed or
//! given back later (document 02, #105).

use super::{must_be_seat, Lot, Message, Model, Refusal, State, NO_CONTACT};
use crate::graph::NO_LINKS;

impl Model {
    /// Seats a lot and tells its contact of it. Refusals: 3, 7, 4, 5, 6.
    pub fn join(&mut self, seat: u8, number: u64, vector: u8, contact: u8) -> Result<(), Refusal> {
        must_be_contact(contact)?;
        self.may_reserve(seat, number)?;
        self.must_have_contact(contact)?;
        self.hold(seat, number, vector);
        self.seat(seat, contact);
        Ok(())
    }

    /// Holds a seat, a number and a vector for a lot, and sends nothing.
    /// Refusals: 3, 7, 4, 5.
    pub fn reserve(&mut self, seat: u8, number: u64, vector: u8) -> Result<(), Refusal> {
        self.may_reserve(seat, number)?;
        self.hold(seat, number, vector);
        Ok(())
    }

    /// Seats a reserved lot and tells its contact of it. Refusals: 3, 7, 14, 6.
    pub fn confirm(&mut self, seat: u8, contact: u8) -> Result<(), Refusal> {
        must_be_seat(seat)?;
        must_be_contact(contact)?;
        self.must_be_open()?;
        self.must_be_reserved(seat)?;
        self.must_have_contact(contact)?;
        self.seat(seat, contact);
        Ok(())
    }

    /// Frees the seat of a reserved lot. Refusals: 3, 14.
    pub fn give_back(&mut self, seat: u8) -> Result<(), Refusal> {
        must_be_seat(seat)?;
        self.must_be_reserved(seat)?;
        self.lots[usize::from(seat)] = None;
        Ok(())
    }

    fn may_reserve(&self, seat: u8, number: u64) -> Result<(), Refusal> {
        must_be_seat(seat)?;
        self.must_be_open()?;
        if self.lot_at(seat).is_some() {
            return Err(Refusal::SeatTaken);
        }
        match self.taken().any(|(_, lot)| lot.number == number) {
            true => Err(Refusal::NumberInUse),
            false => Ok(()),
        }
    }

    fn must_be_reserved(&self, seat: u8) -> Result<(), Refusal> {
        match self.lot_at(seat).map(|lot| lot.state) {
            Some(State::Reserved) => Ok(()),
            _ => Err(Refusal::NotReserved),
        }
    }

    /// A seated lot, or none in a record that has none.
    pub(super) fn must_have_contact(&self, contact: u8) -> Result<(), Refusal> {
        let is_right = match contact {
            NO_CONTACT => self.seated().next().is_none(),
            seat => self.seated_at(seat).is_some(),
        };
        match is_right {
            true => Ok(()),
            false => Err(Refusal::NoContact),
        }
    }

    pub(super) fn hold(&mut self, seat: u8, number: u64, vector: u8) {
        self.lots[usize::from(seat)] = Some(Lot {
            number,
            vector,
            state: State::Reserved,
            links: NO_LINKS,
        });
    }

    pub(super) fn seat(&mut self, seat: u8, contact: u8) {
        let lot = self.lots[usize::from(seat)].as_mut();
        lot.expect("the seat is held").state = State::Staying;
        if contact != NO_CONTACT {
            self.pending.insert(Message::meet(contact, seat, 0));
        }
    }
}

fn must_be_contact(contact: u8) -> Result<(), Refusal> {
    match contact {
        NO_CONTACT => Ok(()),
        seat => must_be_seat(seat),
    }
}
