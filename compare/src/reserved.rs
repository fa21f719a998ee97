//! What calls meet of reserved lots (document 02, #105): told apart by the call,
//! its answer and the record before it.

mod unsound;

use crate::before::{Before, Clearing, Pending, FREE, LEAVING, RESERVED, STAYING};
use crate::call::{Answer, Call, NAMES, REFUSALS};
use crate::graph::SEATS;
use crate::model::NO_CONTACT;
use std::collections::BTreeSet;

pub use unsound::Unsound;

/// The name of a call, as in [`NAMES`].
type Name = &'static str;

#[derive(Clone, Copy, PartialEq, Eq, PartialOrd, Ord, Debug)]
pub enum Met {
    /// A reservation, a confirmation or a return, by its refusal or 0, in phase open
    /// or clearing, with something pending or not.
    Answered(Name, u8, Clearing, Pending),
    /// An accepted call of a record with a reserved lot.
    Beside(Beside),
    /// A call of a reserved lot's seat, by its refusal or 0.
    SeatReserved(Name, u8),
    /// A number that a reserved lot has.
    NumberReserved(Name),
    /// 14 of a seat in that state.
    NotReserved(Name, u8),
    Contact(Name, Contact),
    /// An accepted call beside a reserved lot whose number and vector are 0.
    NumberAndVector0,
}

#[derive(Clone, Copy, PartialEq, Eq, PartialOrd, Ord, Debug)]
pub enum Beside {
    Join,
    Leave,
    /// By its kind.
    Delivery(u8),
    /// Of one message or more.
    Bundle,
    /// From open without leavers, with some, and from clearing.
    IdleTurn,
    TurnToClearing,
    TurnToOpen,
    Holder,
    NoHolder,
    CheckYes,
    CheckNo,
    Counts,
}

#[derive(Clone, Copy, PartialEq, Eq, PartialOrd, Ord, Debug)]
pub enum Contact {
    /// Refused: another lot that is reserved, the lot's own seat, none though lots
    /// are seated, and a free seat in a record that has only reserved lots.
    Reserved,
    Own,
    NoneOfSeated,
    FreeBesideReserved,
    /// Accepted: a leaving lot, and none in a record that has only reserved lots,
    /// others too or the newcomer alone.
    Leaving,
    NoneBesideReserved,
    NoneAlone,
}

/// All that can be met.
pub fn all() -> BTreeSet<Met> {
    let mut all = BTreeSet::from([Met::NumberAndVector0]);
    all.extend(answered());
    all.extend(beside().map(Met::Beside));
    let at_reserved = [("join", 4), ("reserve", 4), ("leave", 8), ("find", 8)];
    let read = [("read_link", 8), ("read_lot", 0)];
    let seats = at_reserved.into_iter().chain(read);
    all.extend(seats.map(|(name, refusal)| Met::SeatReserved(name, refusal)));
    all.extend(["join", "reserve"].map(Met::NumberReserved));
    for name in ["confirm", "give_back"] {
        all.extend([FREE, STAYING, LEAVING].map(|state| Met::NotReserved(name, state)));
    }
    all.extend(contacts());
    all
}

/// Phase open alone but for 3 and returns, clearing alone for 7.
fn answered() -> Vec<Met> {
    let mut met = Vec::new();
    for (name, refusals) in NAMES.into_iter().zip(REFUSALS) {
        if !is_of_105(name) {
            continue;
        }
        let later = refusals.iter().copied().filter(|&refusal| refusal > 2);
        for refusal in later.chain([0]) {
            let phases: &[Clearing] = match refusal {
                3 => &[false, true],
                7 => &[true],
                _ if name == "give_back" => &[false, true],
                _ => &[false],
            };
            for &clearing in phases {
                let answered = |pending| Met::Answered(name, refusal, clearing, pending);
                met.extend([false, true].map(answered));
            }
        }
    }
    met
}

fn is_of_105(name: Name) -> bool {
    ["reserve", "confirm", "give_back"].contains(&name)
}

fn beside() -> impl Iterator<Item = Beside> {
    use Beside::*;
    let others = [
        Join,
        Leave,
        Bundle,
        IdleTurn,
        TurnToClearing,
        TurnToOpen,
        Holder,
        NoHolder,
        CheckYes,
        CheckNo,
        Counts,
    ];
    (1..=7).map(Delivery).chain(others)
}

fn contacts() -> Vec<Met> {
    use Contact::*;
    let of_both = [
        Reserved,
        NoneOfSeated,
        FreeBesideReserved,
        Leaving,
        NoneBesideReserved,
    ];
    let mut met = Vec::new();
    for name in ["join", "confirm"] {
        met.extend(of_both.map(|contact| Met::Contact(name, contact)));
    }
    met.extend([Own, NoneAlone].map(|contact| Met::Contact("confirm", contact)));
    met
}

/// What a call of a sound record met.
pub fn met(call: Call, answer: Answer, record: &[u8]) -> Vec<Met> {
    if [1, 2].contains(&answer.refusal) {
        return Vec::new();
    }
    let before = Before { record };
    let name = NAMES[call.index()];
    let mut met = Vec::new();
    if is_of_105(name) {
        met.push(before.answered(name, answer.refusal));
    }
    if before.count(RESERVED) > 0 {
        met.extend(before.beside(call, answer).map(Met::Beside));
        met.extend(before.named(name, call, answer.refusal));
        let contact = before.contact(call, answer.refusal);
        met.extend(contact.map(|contact| Met::Contact(name, contact)));
        if answer.refusal == 0 && before.reserves_0() {
            met.push(Met::NumberAndVector0);
        }
    }
    if let (14, Call::Confirm { seat, .. } | Call::GiveBack { seat }) = (answer.refusal, call) {
        met.push(Met::NotReserved(name, before.state(seat)));
    }
    met
}

impl Before<'_> {
    fn answered(&self, name: Name, refusal: u8) -> Met {
        Met::Answered(name, refusal, self.is_clearing(), self.has_pending())
    }

    fn beside(&self, call: Call, answer: Answer) -> Option<Beside> {
        let [value, ..] = answer.values;
        match call {
            _ if answer.refusal != 0 => None,
            Call::Join { .. } => Some(Beside::Join),
            Call::Leave { .. } => Some(Beside::Leave),
            Call::Deliver(message) => Some(Beside::Delivery(message.kind)),
            Call::Bundle { .. } => (value > 0).then_some(Beside::Bundle),
            Call::Turn if self.is_clearing() => Some(Beside::TurnToOpen),
            Call::Turn if self.count(LEAVING) > 0 => Some(Beside::TurnToClearing),
            Call::Turn => Some(Beside::IdleTurn),
            Call::Find { .. } if value == NO_CONTACT.into() => Some(Beside::NoHolder),
            Call::Find { .. } => Some(Beside::Holder),
            Call::Check if value == 1 => Some(Beside::CheckYes),
            Call::Check => Some(Beside::CheckNo),
            Call::ReadCounts => Some(Beside::Counts),
            _ => None,
        }
    }

    /// The seat or the number of a reserved lot.
    fn named(&self, name: Name, call: Call, refusal: u8) -> Option<Met> {
        match call {
            Call::Join { number, .. } | Call::Reserve { number, .. } if refusal == 5 => {
                let mut reserved = (0..SEATS as u8).filter(|&seat| self.state(seat) == RESERVED);
                let is_reserved = reserved.any(|seat| self.number(seat) == number);
                is_reserved.then_some(Met::NumberReserved(name))
            }
            Call::Join { seat, .. } | Call::Reserve { seat, .. } if refusal == 4 => {
                self.at_reserved(name, seat, refusal)
            }
            Call::Leave { seat } | Call::Find { seat, .. } if refusal == 8 => {
                self.at_reserved(name, seat, refusal)
            }
            Call::ReadLink { seat, .. } if refusal == 8 => self.at_reserved(name, seat, refusal),
            Call::ReadLot { seat } if refusal == 0 => self.at_reserved(name, seat, refusal),
            _ => None,
        }
    }

    fn at_reserved(&self, name: Name, seat: u8, refusal: u8) -> Option<Met> {
        let is_reserved = self.state(seat) == RESERVED;
        is_reserved.then_some(Met::SeatReserved(name, refusal))
    }

    /// The contact of a join or a confirmation that is accepted or meets 6.
    fn contact(&self, call: Call, refusal: u8) -> Option<Contact> {
        let (seat, contact) = match call {
            Call::Join { seat, contact, .. } | Call::Confirm { seat, contact } => (seat, contact),
            _ => return None,
        };
        if ![0, 6].contains(&refusal) {
            return None;
        }
        let seated = self.count(STAYING) + self.count(LEAVING);
        let own = usize::from(self.state(seat) == RESERVED);
        match (refusal, contact) {
            (6, NO_CONTACT) => Some(Contact::NoneOfSeated),
            (6, _) if contact == seat && own == 1 => Some(Contact::Own),
            (6, _) if self.state(contact) == RESERVED => Some(Contact::Reserved),
            (6, _) if seated == 0 => Some(Contact::FreeBesideReserved),
            (0, NO_CONTACT) if self.count(RESERVED) > own => Some(Contact::NoneBesideReserved),
            (0, NO_CONTACT) => Some(Contact::NoneAlone),
            (0, _) if self.state(contact) == LEAVING => Some(Contact::Leaving),
            _ => None,
        }
    }

    fn reserves_0(&self) -> bool {
        let mut reserved = (0..SEATS as u8).filter(|&seat| self.state(seat) == RESERVED);
        reserved.any(|seat| self.number(seat) == 0 && self.vector(seat) == 0)
    }
}
