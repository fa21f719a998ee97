//! The record of document 01 as plain data: 64 seats, a phase and the pending
//! messages, with the calls on them.
//!
//! A call that may be refused answers `Err` with the first row of the table
//! that applies, and then changes nothing. Rows 1 and 2 speak of lent memory:
//! a model has no size, and [`Model::from_parts`] is where it could be unsound.

mod clearing;
mod crash;
mod fault;
mod joining;
mod merge;
mod message;
mod refusal;
mod sound;
#[cfg(test)]
mod wrong_bundle;
#[cfg(test)]
mod wrong_check;
#[cfg(test)]
mod wrong_crash;
#[cfg(test)]
mod wrong_find;
#[cfg(test)]
mod wrong_holder;
#[cfg(test)]
mod wrong_meet;
#[cfg(test)]
mod wrong_merge;
#[cfg(test)]
mod wrong_reserved;
#[cfg(test)]
mod wrong_reserving;

use crate::graph::{Held, Links, Member, Side, LEVELS, SEATS};
use crate::rules::{Entries, Rules};
use crate::search::Search;
use std::collections::BTreeSet;

pub use message::{Kind, Message};
pub use refusal::Refusal;

pub use crate::rules::{shared_bits, Effect};
pub use crate::search::Found;
pub(crate) use fault::Fault;
#[cfg(test)]
pub(crate) use wrong_bundle::WrongBundle;
#[cfg(test)]
pub(crate) use wrong_check::WrongCheck;
#[cfg(test)]
pub(crate) use wrong_crash::WrongCrash;
#[cfg(test)]
pub(crate) use wrong_find::WrongFind;
#[cfg(test)]
pub(crate) use wrong_holder::WrongHolder;
#[cfg(test)]
pub(crate) use wrong_meet::WrongMeet;
#[cfg(test)]
pub(crate) use wrong_merge::WrongMerge;
#[cfg(test)]
pub(crate) use wrong_reserved::WrongReserved;
#[cfg(test)]
pub(crate) use wrong_reserving::WrongReserving;

/// The contact of the first lot.
pub const NO_CONTACT: u8 = 255;

#[derive(Clone, Copy, PartialEq, Eq, Debug)]
pub enum Phase {
    Open = 0,
    Clearing = 1,
}

/// The state of a lot; a free seat has none. A reserved lot is not seated.
#[derive(Clone, Copy, PartialEq, Eq, Debug)]
pub enum State {
    Staying = 1,
    Leaving = 2,
    Reserved = 3,
}

#[derive(Clone, PartialEq, Eq, Debug)]
pub struct Lot {
    pub number: u64,
    pub vector: u8,
    pub state: State,
    pub links: Links,
}

impl Lot {
    fn is_seated(&self) -> bool {
        self.state != State::Reserved
    }
}

#[derive(Clone, Copy, PartialEq, Eq, Debug)]
pub struct Counts {
    pub lots: usize,
    pub phase: Phase,
    pub pending: usize,
}

pub type Lots = [Option<Lot>; SEATS];

#[derive(Clone, PartialEq, Eq, Debug)]
pub struct Model {
    lots: Lots,
    phase: Phase,
    pending: BTreeSet<Message>,
    #[cfg(test)]
    fault: Option<Fault>,
}

impl Model {
    /// An empty record in phase open.
    pub fn open() -> Model {
        Model {
            lots: [const { None }; SEATS],
            phase: Phase::Open,
            pending: BTreeSet::new(),
            #[cfg(test)]
            fault: None,
        }
    }

    /// A record of any contents. Refusals: 2 when they are not sound.
    pub fn from_parts(
        lots: Lots,
        phase: Phase,
        pending: BTreeSet<Message>,
    ) -> Result<Model, Refusal> {
        let model = Model {
            lots,
            phase,
            pending,
            #[cfg(test)]
            fault: None,
        };
        if model.is_sound() {
            Ok(model)
        } else {
            Err(Refusal::Unsound)
        }
    }

    /// Marks a staying lot as leaving. Refusals: 3, 7, 8, 9.
    pub fn leave(&mut self, seat: u8) -> Result<(), Refusal> {
        must_be_seat(seat)?;
        self.must_be_open()?;
        let lot = self.lots[usize::from(seat)].as_mut();
        let lot = lot.filter(|lot| lot.is_seated());
        let lot = lot.ok_or(Refusal::EmptySeat)?;
        if lot.state == State::Leaving {
            return Err(Refusal::AlreadyLeaving);
        }
        lot.state = State::Leaving;
        Ok(())
    }

    fn must_be_open(&self) -> Result<(), Refusal> {
        match self.phase {
            Phase::Open => Ok(()),
            Phase::Clearing => Err(Refusal::InClearing),
        }
    }

    fn must_be_drained(&self) -> Result<(), Refusal> {
        match self.pending.is_empty() {
            true => Ok(()),
            false => Err(Refusal::MessagesLeft),
        }
    }

    /// Frees seats, and takes away the links to them.
    fn free(&mut self, is_gone: impl Fn(u8, &Lot) -> bool) {
        for (seat, lot) in (0..).zip(&mut self.lots) {
            lot.take_if(|lot| is_gone(seat, lot));
        }
        let free: Vec<bool> = self.lots.iter().map(Option::is_none).collect();
        for lot in self.lots.iter_mut().flatten() {
            for link in lot.links.iter_mut().flatten() {
                link.take_if(|seat| free[usize::from(*seat)]);
            }
        }
    }

    /// What the delivery of a pending message would do.
    pub fn effect(&self, message: Message) -> Effect {
        Rules::effect(self, message)
    }

    /// Takes a pending message away and does its rule. Refusals: 10.
    pub fn deliver(&mut self, message: Message) -> Result<(), Refusal> {
        if !self.pending.remove(&message) {
            return Err(Refusal::NoSuchMessage);
        }
        let effect = self.effect(message);
        #[cfg(test)]
        let effect = self.wrong_meet(message, effect);
        if let Some((side, link)) = effect.set {
            let links = self.links_mut(message.to);
            links[usize::from(message.level)][side as usize] = link;
        }
        self.pending.extend(effect.sends);
        Ok(())
    }

    /// The links of the lot that a pending message is sent to.
    fn links_mut(&mut self, to: u8) -> &mut Links {
        let lot = self.lots[usize::from(to)].as_mut();
        let lot = lot.expect("a pending message names seated lots");
        &mut lot.links
    }

    /// Delivers the smallest pending message, then the smallest of what is
    /// pending then, until none is or the limit is reached; the count.
    pub fn bundle(&mut self, limit: u16) -> u16 {
        #[cfg(test)]
        if let Some(delivered) = self.wrong_bundle(limit) {
            return delivered;
        }
        let mut delivered = 0;
        while delivered < limit && self.deliver_smallest() {
            delivered += 1;
        }
        delivered
    }

    /// Delivers the smallest pending message until none is left; the count.
    pub fn settle(&mut self) -> u64 {
        let mut deliveries = 0;
        while self.deliver_smallest() {
            deliveries += 1;
        }
        deliveries
    }

    /// As [`Model::settle`], but gives up with `None` after `most` deliveries.
    pub fn settle_within(&mut self, most: u64) -> Option<u64> {
        (0..=most).find(|_| !self.deliver_smallest())
    }

    /// False when nothing is pending.
    fn deliver_smallest(&mut self) -> bool {
        let smallest = self.pending.first().copied();
        smallest.is_some_and(|message| self.deliver(message).is_ok())
    }

    /// The search of document 000 from level 8, past lots that are leaving, on a
    /// settled record. Refusals: 3, 8, 13.
    pub fn find(&self, start: u8, scanned: u64) -> Result<Found, Refusal> {
        self.may_find(start)?;
        let found = self.search(start, scanned);
        #[cfg(test)]
        let found = self.wrong_holder(start, scanned, found);
        Ok(found)
    }

    fn may_find(&self, start: u8) -> Result<(), Refusal> {
        #[cfg(test)]
        if let Some(Fault::Find(wrong)) = self.fault {
            return self.may_find_with(wrong, start);
        }
        self.seated_lot(start)?;
        match self.is_settled() {
            true => Ok(()),
            false => Err(Refusal::Unsettled),
        }
    }

    /// Phase open, nothing pending, and the check says yes.
    pub fn is_settled(&self) -> bool {
        self.phase == Phase::Open && self.pending.is_empty() && self.check()
    }

    /// Whether every component of the members is a skip graph, by Constraints 1 to 6.
    pub fn check(&self) -> bool {
        let links = self.member_links();
        let says = Held::new(&self.members(), &links).constraints_hold();
        #[cfg(test)]
        let says = self.wrong_check(says);
        says
    }

    /// Reads a lot, a reserved one too. Refusals: 3, 8.
    pub fn lot(&self, seat: u8) -> Result<&Lot, Refusal> {
        must_be_seat(seat)?;
        self.lot_at(seat).ok_or(Refusal::EmptySeat)
    }

    /// A seat with a reserved lot counts as empty. Refusals: 3, 8.
    fn seated_lot(&self, seat: u8) -> Result<&Lot, Refusal> {
        must_be_seat(seat)?;
        self.seated_at(seat).ok_or(Refusal::EmptySeat)
    }

    /// Reads a link: a seat, or none for document 01's 255. Refusals: 3, 12, 8.
    pub fn link(&self, seat: u8, level: u8, side: u8) -> Result<Option<u8>, Refusal> {
        must_be_seat(seat)?;
        let level = usize::from(level);
        let side = Side::from_number(side).filter(|_| level < LEVELS);
        let side = side.ok_or(Refusal::NoSuchLevel)?;
        Ok(self.seated_lot(seat)?.links[level][side as usize])
    }

    pub fn is_pending(&self, message: Message) -> bool {
        self.pending.contains(&message)
    }

    /// The smallest pending message, by its five numbers in order, that is not
    /// below five given numbers.
    pub fn next_message(&self, from: Message) -> Option<Message> {
        self.pending.range(from..).next().copied()
    }

    pub fn counts(&self) -> Counts {
        Counts {
            lots: self.seated().count(),
            phase: self.phase,
            pending: self.pending.len(),
        }
    }

    pub fn phase(&self) -> Phase {
        self.phase
    }

    /// The pending messages, ascending by their five numbers.
    pub fn pending(&self) -> &BTreeSet<Message> {
        &self.pending
    }

    /// The seated lots, ascending by seat.
    pub fn seated(&self) -> impl Iterator<Item = (u8, &Lot)> {
        self.taken().filter(|(_, lot)| lot.is_seated())
    }

    /// The lots of all seats that are not free, the reserved ones too; ascending by
    /// seat.
    pub fn taken(&self) -> impl Iterator<Item = (u8, &Lot)> {
        let seats = 0u8..;
        let lots = seats.zip(&self.lots);
        lots.filter_map(|(seat, lot)| lot.as_ref().map(|lot| (seat, lot)))
    }

    /// All seated lots, while clearing the staying ones; ascending by seat.
    pub fn members(&self) -> Vec<Member> {
        let member = |(seat, lot): (u8, &Lot)| Member {
            seat,
            number: lot.number,
            vector: lot.vector,
        };
        self.member_lots().map(member).collect()
    }

    /// The links of the members, in their order.
    pub fn member_links(&self) -> Vec<Links> {
        self.member_lots().map(|(_, lot)| lot.links).collect()
    }

    fn member_lots(&self) -> impl Iterator<Item = (u8, &Lot)> {
        self.taken().filter(|(_, lot)| match lot.state {
            State::Staying => true,
            State::Leaving => self.phase == Phase::Open,
            State::Reserved => self.has_fault(Fault::ReservedIsMember),
        })
    }

    fn lot_at(&self, seat: u8) -> Option<&Lot> {
        self.lots.get(usize::from(seat))?.as_ref()
    }

    fn seated_at(&self, seat: u8) -> Option<&Lot> {
        self.lot_at(seat).filter(|lot| lot.is_seated())
    }

    /// The lot that a link or a pending message names.
    fn named(&self, seat: u8) -> &Lot {
        let lot = self.seated_at(seat);
        lot.expect("links and pending messages name seated lots")
    }
}

impl Entries for Model {
    fn number(&self, seat: u8) -> u64 {
        self.named(seat).number
    }

    fn vector(&self, seat: u8) -> u8 {
        self.named(seat).vector
    }

    fn is_leaving(&self, seat: u8) -> bool {
        self.named(seat).state == State::Leaving
    }

    fn neighbour(&self, seat: u8, level: usize, side: Side) -> Option<u8> {
        self.named(seat).links[level][side as usize]
    }

    fn has(&self, fault: Fault) -> bool {
        self.has_fault(fault)
    }
}

fn must_be_seat(seat: u8) -> Result<(), Refusal> {
    match usize::from(seat) < SEATS {
        true => Ok(()),
        false => Err(Refusal::NoSuchSeat),
    }
}
