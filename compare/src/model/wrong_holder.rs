//! Searches that do not go past leaving lots as document 02, #104, says.

use super::{Fault, Found, Model};
use crate::rules::Entries;
use crate::search::Search;

#[derive(Clone, Copy, PartialEq, Eq, Debug)]
pub(crate) enum WrongHolder {
    LeaverNamed,
    /// Only a lot at which the walk itself ends is asked whether it is leaving.
    LeftOfTheEndNamed,
    /// A second leaver in a row is named.
    SecondLeaverNamed,
    /// At a second leaver in a row the answer is none.
    NoneAtTheSecondLeaver,
    NoneAtALeaver,
    LeftStepsNotCounted,
    MissingLinkCounted,
    /// The farthest lot that stays in the place of the nearest.
    SmallestStaying,
}

impl Model {
    /// What a search with a fault answers where it comes to a leaving lot; the
    /// right answer without one.
    pub(super) fn wrong_holder(&self, start: u8, scanned: u64, right: Found) -> Found {
        let Some(Fault::Holder(wrong)) = self.fault else {
            return right;
        };
        let not_above = self.not_above(start, scanned);
        let Some(leaver) = not_above.holder.filter(|&lot| self.is_leaving(lot)) else {
            return right;
        };
        let second = self.step_left(leaver, not_above.hops);
        match wrong {
            WrongHolder::LeaverNamed => not_above,
            WrongHolder::LeftOfTheEndNamed => match self.walk(start, scanned) {
                (end, _) if end == leaver => right,
                _ => not_above,
            },
            WrongHolder::SecondLeaverNamed => second,
            WrongHolder::NoneAtTheSecondLeaver => Found {
                holder: second.holder.filter(|&lot| !self.is_leaving(lot)),
                ..second
            },
            WrongHolder::NoneAtALeaver => Found {
                holder: None,
                ..not_above
            },
            WrongHolder::LeftStepsNotCounted => Found {
                hops: not_above.hops,
                ..right
            },
            WrongHolder::MissingLinkCounted => Found {
                hops: right.hops + u32::from(right.holder.is_none()),
                ..right
            },
            WrongHolder::SmallestStaying => self.go_on_to_the_last(right),
        }
    }

    /// From a staying lot on to the last one on the left that stays.
    fn go_on_to_the_last(&self, first: Found) -> Found {
        let (mut last, mut at) = (first, first);
        while let Some(lot) = at.holder {
            if !self.is_leaving(lot) {
                last = at;
            }
            at = self.step_left(lot, at.hops);
        }
        last
    }
}
