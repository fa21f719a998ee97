//! Searches that are not refused as document 02, #102, says.

use super::{Model, Phase, Refusal, State};
use crate::graph::{components, links_within};
use crate::lent::place::GOING;
use crate::lent::place_of;

#[derive(Clone, Copy, PartialEq, Eq, Debug)]
pub(crate) enum WrongFind {
    CheckNotAsked,
    UnsettledBeforeEmptySeat,
    LeaverUnsettles,
    OnlyLevel0Asked,
    HalfOfThePending,
}

impl Model {
    /// Whether a search with a fault is refused.
    pub(super) fn may_find_with(&self, wrong: WrongFind, start: u8) -> Result<(), Refusal> {
        let settled = match self.is_settled_with(wrong) {
            true => Ok(()),
            false => Err(Refusal::Unsettled),
        };
        match (self.seated_lot(start), wrong) {
            (Err(Refusal::EmptySeat), WrongFind::UnsettledBeforeEmptySeat) => {
                settled.and(Err(Refusal::EmptySeat))
            }
            (lot, _) => lot.and(settled),
        }
    }

    fn is_settled_with(&self, wrong: WrongFind) -> bool {
        let open = self.phase == Phase::Open;
        let at_rest = open && self.pending.is_empty();
        let mut lots = self.seated().map(|(_, lot)| lot);
        match wrong {
            WrongFind::CheckNotAsked => at_rest,
            WrongFind::UnsettledBeforeEmptySeat => self.is_settled(),
            WrongFind::LeaverUnsettles => {
                self.is_settled() && lots.all(|lot| lot.state == State::Staying)
            }
            WrongFind::OnlyLevel0Asked => at_rest && self.level_0_is_right(),
            WrongFind::HalfOfThePending => open && !self.first_half_is_pending() && self.check(),
        }
    }

    fn level_0_is_right(&self) -> bool {
        let (members, held) = (self.members(), self.member_links());
        let right = links_within(&members, &components(&members, &held));
        let mut both = right.iter().zip(held);
        both.all(|(right, held)| right[0] == held[0])
    }

    /// Whether a message is pending in the first half of the places that phase
    /// open has: those of a MEET, to nearly all seats. In the first half of all
    /// places stands every message of phase open.
    fn first_half_is_pending(&self) -> bool {
        let places = self.pending.iter().map(|&message| place_of(message));
        places.flatten().any(|place| place < GOING / 2)
    }
}
