//! Meetings that do not write a link as document 02, #103, says.

use super::{Effect, Fault, Kind, Message, Model};
use crate::graph::Side;
use crate::rules::Rules;

#[derive(Clone, Copy, PartialEq, Eq, Debug)]
pub(crate) enum WrongMeet {
    OnePlaceBeside,
    OppositeCleared,
    SetThoughPassedOn,
}

impl Model {
    /// Writes the links that a MEET with a fault writes besides its rule; what is
    /// left to do, which is all without a fault.
    pub(super) fn wrong_meet(&mut self, m: Message, effect: Effect) -> Effect {
        let (Some(Fault::Meet(wrong)), Some(Kind::Meet)) = (self.fault, m.kind()) else {
            return effect;
        };
        match wrong {
            WrongMeet::OnePlaceBeside => self.write_beside(m, effect),
            WrongMeet::OppositeCleared => self.clear_opposite(m, effect),
            WrongMeet::SetThoughPassedOn => self.set_though_passed_on(m, effect),
        }
    }

    /// The link is written in the place before its own, which stays.
    fn write_beside(&mut self, m: Message, effect: Effect) -> Effect {
        if let Some((side, link)) = effect.set {
            if let Some((level, side)) = place_before(m.level.into(), side) {
                self.links_mut(m.to)[level][side as usize] = link;
            }
        }
        let set = None;
        Effect { set, ..effect }
    }

    /// Where a link is set, the one on the other side becomes none.
    fn clear_opposite(&mut self, m: Message, effect: Effect) -> Effect {
        if let Some((side, _)) = effect.set {
            self.links_mut(m.to)[usize::from(m.level)][side.away() as usize] = None;
        }
        effect
    }

    /// A MEET that sets no link and yet does something is passed on.
    fn set_though_passed_on(&self, m: Message, effect: Effect) -> Effect {
        if effect.set.is_some() || effect == Effect::default() {
            return effect;
        }
        let set = Some((self.side_toward(m.to, m.about), Some(m.about)));
        Effect { set, ..effect }
    }
}

/// The place of a link before another in the order of the record's bytes: level
/// by level, left then right. Before the first lies the vector, which is no link.
fn place_before(level: usize, side: Side) -> Option<(usize, Side)> {
    match side {
        Side::Left => Some((level.checked_sub(1)?, Side::Right)),
        Side::Right => Some((level, Side::Left)),
    }
}
