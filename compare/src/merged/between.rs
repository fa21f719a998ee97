//! Calls while two components by links, each of several lots, have a MEET pending
//! between them: a merge that is not delivered yet, or what came of it.

use crate::before::Before;
use crate::call::{Answer, Call};
use crate::joined::Joined;
use crate::model::Message;

#[derive(Clone, Copy, PartialEq, Eq, PartialOrd, Ord, Debug)]
pub enum Between {
    Join,
    Reserve,
    Confirm,
    GiveBack,
    Leave,
    /// By its kind.
    Delivery(u8),
    /// Of a MEET that stands between the two.
    Meeting,
    /// Of one message or more.
    Bundle,
    /// Of two lots of one component, or to a third one.
    MergeWithin,
    MergeToThird,
    CheckYes,
    CheckNo,
    /// Refused by 11, 11 and 13.
    TurnWaits,
    CrashWaits,
    ScanWaits,
}

impl Between {
    pub fn all() -> impl Iterator<Item = Between> {
        use Between::*;
        let others = [
            Join,
            Reserve,
            Confirm,
            GiveBack,
            Leave,
            Meeting,
            Bundle,
            MergeWithin,
            MergeToThird,
            CheckYes,
            CheckNo,
            TurnWaits,
            CrashWaits,
            ScanWaits,
        ];
        (1..=3).map(Delivery).chain(others)
    }

    pub fn of(call: Call, answer: Answer, before: Before) -> Vec<Between> {
        let [value, ..] = answer.values;
        let kind = match (call, answer.refusal) {
            (Call::Join { .. }, 0) => Between::Join,
            (Call::Reserve { .. }, 0) => Between::Reserve,
            (Call::Confirm { .. }, 0) => Between::Confirm,
            (Call::GiveBack { .. }, 0) => Between::GiveBack,
            (Call::Leave { .. }, 0) => Between::Leave,
            (Call::Deliver(message), 0) => Between::Delivery(message.kind),
            (Call::Bundle { .. }, 0) if value > 0 => Between::Bundle,
            (Call::Merge { .. }, 0) => Between::MergeWithin,
            (Call::Check, 0) if value == 1 => Between::CheckYes,
            (Call::Check, 0) => Between::CheckNo,
            (Call::Turn, 11) => Between::TurnWaits,
            (Call::Crash { .. }, 11) => Between::CrashWaits,
            (Call::Find { .. }, 13) => Between::ScanWaits,
            _ => return Vec::new(),
        };
        if before.meetings().next().is_none() {
            return Vec::new();
        }
        let halves = Joined::by_links(before, |_| true);
        let is_between = |m: Message| {
            let (one, other) = (halves.to(m.to), halves.to(m.about));
            one != other && one.count_ones() > 1 && other.count_ones() > 1
        };
        if !before.meetings().any(is_between) {
            return Vec::new();
        }
        match call {
            Call::Deliver(message) if message.kind == 1 && is_between(message) => {
                vec![kind, Between::Meeting]
            }
            Call::Merge { first, second } => {
                let joined = Joined::of(before, |_| true);
                match joined.to(first) == joined.to(second) {
                    true => vec![kind],
                    false => vec![Between::MergeToThird],
                }
            }
            _ => vec![kind],
        }
    }
}
