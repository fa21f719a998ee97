//! Document 01's roster, kept from each call's arguments and whether it was
//! refused, and from nothing else; and the table of refusals read on it. Since
//! document 02, #105, it keeps reservations too, since #106 each lot's component, which
//! a merge (#107) makes one with another.

mod components;

use crate::call::{Answer, Call};
use crate::graph::{Member, LEVELS, SEATS};
use crate::model::{Message, Model, Phase, Refusal, State, NO_CONTACT};
use components::Component;
#[cfg(test)]
pub(crate) use components::WrongRoster;
use std::collections::{BTreeMap, BTreeSet};

struct Lot {
    number: u64,
    vector: u8,
    state: State,
    /// None of a reserved lot.
    component: Option<Component>,
}

pub struct Roster {
    lots: BTreeMap<u8, Lot>,
    phase: Phase,
    /// How many components there have been.
    components: Component,
    #[cfg(test)]
    pub(crate) wrong: Option<WrongRoster>,
}

impl Default for Roster {
    fn default() -> Roster {
        Roster::new()
    }
}

impl Roster {
    pub fn new() -> Roster {
        Roster {
            lots: BTreeMap::new(),
            phase: Phase::Open,
            components: 0,
            #[cfg(test)]
            wrong: None,
        }
    }

    /// The first row of the table, in its order, that applies to a call.
    pub fn refusal(&self, call: Call, pending: &BTreeSet<Message>) -> Option<Refusal> {
        let applies = |row: &Refusal| self.applies(*row, call, pending);
        Refusal::ORDER.into_iter().find(applies)
    }

    fn applies(&self, row: Refusal, call: Call, pending: &BTreeSet<Message>) -> bool {
        let clearing = self.phase == Phase::Clearing;
        match (row, call) {
            (Refusal::NoSuchSeat, call) => names_no_seat(call),
            (Refusal::NoSuchLevel, Call::ReadLink { level, side, .. }) => {
                usize::from(level) >= LEVELS || side > 1
            }
            (Refusal::InClearing, Call::Join { .. } | Call::Leave { .. }) => clearing,
            (Refusal::InClearing, Call::Reserve { .. } | Call::Confirm { .. }) => clearing,
            (Refusal::InClearing, Call::Crash { .. } | Call::Merge { .. }) => clearing,
            (Refusal::SeatTaken, Call::Join { seat, .. } | Call::Reserve { seat, .. }) => {
                !self.is_free(seat)
            }
            (Refusal::NotReserved, Call::Confirm { seat, .. } | Call::GiveBack { seat }) => {
                self.state(seat) != Some(State::Reserved)
            }
            (Refusal::EmptySeat, Call::Leave { seat } | Call::Find { seat, .. }) => {
                !self.is_seated(seat)
            }
            (Refusal::EmptySeat, Call::ReadLink { seat, .. }) => !self.is_seated(seat),
            (Refusal::EmptySeat, Call::ReadLot { seat }) => self.is_free(seat),
            (Refusal::EmptySeat, Call::Crash { seats }) => {
                named(seats).any(|seat| !self.is_seated(seat))
            }
            (Refusal::EmptySeat, Call::Merge { first, second }) => {
                !self.is_seated(first) || !self.is_seated(second)
            }
            (Refusal::SameLot, Call::Merge { first, second }) => first == second,
            // With nothing pending in phase open, the check of calls' records says yes.
            (Refusal::Unsettled, Call::Find { .. }) => clearing || !pending.is_empty(),
            (Refusal::NumberInUse, Call::Join { number, .. } | Call::Reserve { number, .. }) => {
                self.lots.values().any(|lot| lot.number == number)
            }
            (Refusal::NoContact, Call::Join { contact, .. } | Call::Confirm { contact, .. }) => {
                match contact {
                    NO_CONTACT => !self.seated().is_empty(),
                    seat => !self.is_seated(seat),
                }
            }
            (Refusal::AlreadyLeaving, Call::Leave { seat }) => {
                self.state(seat) == Some(State::Leaving)
            }
            (Refusal::NoSuchMessage, Call::Deliver(message)) => !pending.contains(&message),
            (Refusal::MessagesLeft, Call::Turn | Call::Crash { .. }) => !pending.is_empty(),
            _ => false,
        }
    }

    /// Takes an accepted call in.
    pub fn accept(&mut self, call: Call) {
        match call {
            Call::Open => self.open(),
            Call::Join {
                seat,
                number,
                vector,
                contact,
            } => {
                self.reserve(seat, number, vector);
                self.confirm(seat, contact);
            }
            Call::Reserve {
                seat,
                number,
                vector,
            } => self.reserve(seat, number, vector),
            Call::Confirm { seat, contact } => self.confirm(seat, contact),
            Call::GiveBack { seat } => {
                self.lots.remove(&seat);
            }
            Call::Leave { seat } => self.mark(seat, State::Leaving),
            Call::Turn => self.turn(),
            Call::Crash { seats } => self.crash(seats),
            Call::Merge { first, second } => self.merge(first, second),
            _ => {}
        }
    }

    fn open(&mut self) {
        *self = Roster {
            #[cfg(test)]
            wrong: self.wrong,
            ..Roster::new()
        };
    }

    fn reserve(&mut self, seat: u8, number: u64, vector: u8) {
        let lot = Lot {
            number,
            vector,
            state: State::Reserved,
            component: None,
        };
        self.lots.insert(seat, lot);
    }

    fn confirm(&mut self, seat: u8, contact: u8) {
        let component = self.component_through(contact);
        let lot = self.lots.get_mut(&seat);
        let lot = lot.expect("the call names a lot");
        lot.state = State::Staying;
        lot.component = Some(component);
    }

    fn mark(&mut self, seat: u8, state: State) {
        let lot = self.lots.get_mut(&seat);
        lot.expect("the call names a lot").state = state;
    }

    fn turn(&mut self) {
        match self.phase {
            Phase::Open => {
                if self.lots.values().any(|lot| lot.state == State::Leaving) {
                    self.phase = Phase::Clearing;
                }
            }
            Phase::Clearing => {
                self.lots.retain(|_, lot| lot.state != State::Leaving);
                self.phase = Phase::Open;
            }
        }
    }

    /// The seated lots with their states, by seat.
    pub fn seated(&self) -> Vec<(Member, State)> {
        let lot = |(&seat, lot): (&u8, &Lot)| {
            let member = Member {
                seat,
                number: lot.number,
                vector: lot.vector,
            };
            (member, lot.state)
        };
        let is_seated = |(_, state): &(Member, State)| *state != State::Reserved;
        self.lots.iter().map(lot).filter(is_seated).collect()
    }

    /// All seated lots in phase open, the staying ones in clearing; by seat.
    pub fn members(&self) -> Vec<Member> {
        let open = self.phase == Phase::Open;
        let is_member = |(_, state): &(Member, State)| open || *state == State::Staying;
        let members = self.seated().into_iter().filter(is_member);
        members.map(|(member, _)| member).collect()
    }

    /// Whether the readings of a model give this phase and these lots.
    pub fn agrees_with(&self, model: &mut Model) -> bool {
        let seated = self.seated().len() as u64;
        let [lots, phase, ..] = Call::ReadCounts.on_model(model).values;
        let mut seats = 0..SEATS as u8;
        (lots, phase) == (seated, self.phase as u64)
            && seats.all(|seat| self.seat_agrees(seat, model))
    }

    /// Reading the lot shows reserved ones; reading a link meets 8 there.
    fn seat_agrees(&self, seat: u8, model: &mut Model) -> bool {
        let empty = Answer::refused(Refusal::EmptySeat.number());
        let lot = self.lots.get(&seat).map_or(empty, |lot| {
            Answer::accepted([lot.state as u64, lot.number, lot.vector.into(), 0, 0])
        });
        let (level, side) = (0, 0);
        let link = Call::ReadLink { seat, level, side };
        Call::ReadLot { seat }.on_model(model) == lot
            && (link.on_model(model) != empty) == self.is_seated(seat)
    }

    fn state(&self, seat: u8) -> Option<State> {
        self.lots.get(&seat).map(|lot| lot.state)
    }

    fn is_free(&self, seat: u8) -> bool {
        self.state(seat).is_none()
    }

    fn is_seated(&self, seat: u8) -> bool {
        matches!(self.state(seat), Some(State::Staying | State::Leaving))
    }
}

/// The seats of a set.
fn named(seats: u64) -> impl Iterator<Item = u8> {
    (0..SEATS as u8).filter(move |seat| seats >> seat & 1 == 1)
}

/// Row 3: a seat above 63, or a contact that is neither a seat nor 255.
fn names_no_seat(call: Call) -> bool {
    let above_63 = |seat| usize::from(seat) >= SEATS;
    match call {
        Call::Join { seat, contact, .. } | Call::Confirm { seat, contact } => {
            above_63(seat) || (above_63(contact) && contact != NO_CONTACT)
        }
        Call::Merge { first, second } => above_63(first) || above_63(second),
        Call::Reserve { seat, .. } | Call::GiveBack { seat } | Call::Leave { seat } => {
            above_63(seat)
        }
        Call::Find { seat, .. } | Call::ReadLot { seat } | Call::ReadLink { seat, .. } => {
            above_63(seat)
        }
        _ => false,
    }
}
