//! Accepted calls of records with several components.

use crate::before::{Before, LEAVING, STAYING};
use crate::call::{Answer, Call};
use crate::joined::Joined;
use crate::model::NO_CONTACT;

#[derive(Clone, Copy, PartialEq, Eq, PartialOrd, Ord, Debug)]
pub enum Beside {
    Join,
    Reserve,
    Confirm,
    GiveBack,
    Leave,
    /// By its kind.
    Delivery(u8),
    /// Of one message or more.
    Bundle,
    /// From open without leavers, with some, and from clearing.
    IdleTurn,
    TurnToClearing,
    TurnToOpen,
    /// All lots of one component leave, others stay.
    ComponentLeaves,
    /// Lots of several components leave.
    LeaversOfSeveral,
    Holder,
    NoHolder,
    /// A lot of another component lies between the holder and the scanned number.
    NearerElsewhere,
    /// None, but a lot of another component stays and is not above the number.
    OnlyElsewhere,
    CheckYes,
    CheckNo,
}

impl Beside {
    pub fn all() -> impl Iterator<Item = Beside> {
        use Beside::*;
        let others = [
            Join,
            Reserve,
            Confirm,
            GiveBack,
            Leave,
            Bundle,
            IdleTurn,
            TurnToClearing,
            TurnToOpen,
            ComponentLeaves,
            LeaversOfSeveral,
            Holder,
            NoHolder,
            NearerElsewhere,
            OnlyElsewhere,
            CheckYes,
            CheckNo,
        ];
        (1..=7).map(Delivery).chain(others)
    }

    pub fn of(call: Call, answer: Answer, before: Before) -> Vec<Beside> {
        if answer.refusal != 0 {
            return Vec::new();
        }
        let [value, ..] = answer.values;
        let kind = match call {
            Call::Join { .. } => Beside::Join,
            Call::Reserve { .. } => Beside::Reserve,
            Call::Confirm { .. } => Beside::Confirm,
            Call::GiveBack { .. } => Beside::GiveBack,
            Call::Leave { .. } => Beside::Leave,
            Call::Deliver(message) => Beside::Delivery(message.kind),
            Call::Bundle { .. } if value > 0 => Beside::Bundle,
            Call::Turn if before.is_clearing() => Beside::TurnToOpen,
            Call::Turn if before.count(LEAVING) > 0 => Beside::TurnToClearing,
            Call::Turn => Beside::IdleTurn,
            Call::Find { .. } if value == NO_CONTACT.into() => Beside::NoHolder,
            Call::Find { .. } => Beside::Holder,
            Call::Check if value == 1 => Beside::CheckYes,
            Call::Check => Beside::CheckNo,
            _ => return Vec::new(),
        };
        let joined = Joined::of(before, |_| true);
        let components = joined.components();
        if components.len() < 2 {
            return Vec::new();
        }
        let mut met = vec![kind];
        met.extend(match call {
            Call::Find { seat, number } => elsewhere(joined.to(seat), number, value, before),
            _ => None,
        });
        if kind == Beside::TurnToClearing {
            met.extend(leaving(&components, before));
        }
        met
    }
}

/// A search of one component: what others have that stays and is not above.
fn elsewhere(component: u64, number: u64, holder: u64, before: Before) -> Option<Beside> {
    let others = before.seated().filter(|seat| component >> seat & 1 == 0);
    let staying = others.filter(|&seat| before.state(seat) == STAYING);
    let numbers = staying.map(|seat| before.number(seat));
    let nearest = numbers.filter(|&other| other <= number).max()?;
    match holder as u8 {
        NO_CONTACT => Some(Beside::OnlyElsewhere),
        holder => (nearest > before.number(holder)).then_some(Beside::NearerElsewhere),
    }
}

fn leaving(components: &[u64], before: Before) -> Vec<Beside> {
    let leaves = |seat: u8| before.state(seat) == LEAVING;
    let lots = |set: u64| before.seated().filter(move |seat| set >> seat & 1 == 1);
    let mut met = Vec::new();
    let all_of_one = components.iter().any(|&set| lots(set).all(leaves));
    if all_of_one && before.count(STAYING) > 0 {
        met.push(Beside::ComponentLeaves);
    }
    let with_leavers = components.iter().filter(|set| lots(**set).any(leaves));
    if with_leavers.count() > 1 {
        met.push(Beside::LeaversOfSeveral);
    }
    met
}
