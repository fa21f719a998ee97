//! The paragraph "Sound" of document 01, for what a model can hold.

use super::{Kind, Lot, Message, Model, Phase, State};
use crate::graph::{first_bits, Side, LEVELS, NO_LINKS, SIDES};
use crate::rules::Entries;
use std::collections::BTreeSet;

impl Model {
    /// Numbers differ, a reserved lot has no links, and links and pending messages
    /// are as their kind asks.
    pub fn is_sound(&self) -> bool {
        self.numbers_differ()
            && self.reserved_are_unlinked()
            && self.seated().all(|(seat, _)| self.links_are_sound(seat))
            && self.pending.iter().all(|&m| self.message_is_sound(m))
    }

    /// Those of seated and reserved lots together.
    fn numbers_differ(&self) -> bool {
        let numbers: BTreeSet<u64> = self.taken().map(|(_, lot)| lot.number).collect();
        numbers.len() == self.taken().count()
    }

    fn reserved_are_unlinked(&self) -> bool {
        let is_sound = |lot: &Lot| lot.state != State::Reserved || lot.links == NO_LINKS;
        self.taken().all(|(_, lot)| is_sound(lot))
    }

    fn links_are_sound(&self, seat: u8) -> bool {
        (0..LEVELS).all(|level| {
            let sound = |side| match self.neighbour(seat, level, side) {
                Some(link) => self.link_is_sound(seat, link, level, side),
                None => true,
            };
            SIDES.into_iter().all(sound)
        })
    }

    fn link_is_sound(&self, seat: u8, link: u8, level: usize, side: Side) -> bool {
        self.may_meet(seat, link, level)
            && Side::toward(self.number(seat), self.number(link)) == side
    }

    /// Two different seated lots that share at least `level` bits.
    fn may_meet(&self, one: u8, other: u8, level: usize) -> bool {
        match (self.seated_at(one), self.seated_at(other)) {
            (Some(x), Some(y)) => {
                one != other
                    && level < LEVELS
                    && first_bits(x.vector, level) == first_bits(y.vector, level)
            }
            _ => false,
        }
    }

    fn is_staying(&self, seat: u8) -> bool {
        let lot = self.lot_at(seat);
        lot.is_some_and(|lot| lot.state == State::Staying)
    }

    /// Whether the message may be pending.
    pub fn message_is_sound(&self, m: Message) -> bool {
        let Some(kind) = m.kind() else {
            return false;
        };
        let level = usize::from(m.level);
        let is_side = Side::from_number(m.side).is_some();
        let names_two_lots = m.side == 0 && self.may_meet(m.to, m.about, level);
        let seated = self.seated_at(m.to).is_some();
        let fits = match kind {
            Kind::Meet => names_two_lots,
            Kind::Probe => names_two_lots && level < LEVELS - 1,
            Kind::Pull => seated && m.about <= 1 && level < LEVELS - 1 && is_side,
            Kind::Going => seated && m.about == 0 && level < LEVELS && is_side,
            Kind::Seek => names_two_lots && self.is_staying(m.about),
            Kind::Found => names_two_lots && self.is_staying(m.about) && self.is_staying(m.to),
            Kind::None => self.is_staying(m.to) && m.about == 0 && level < LEVELS && is_side,
        };
        fits && phase_of(kind) == self.phase
    }
}

/// The phase in which messages of a kind stand.
fn phase_of(kind: Kind) -> Phase {
    match kind {
        Kind::Meet | Kind::Probe | Kind::Pull => Phase::Open,
        Kind::Going | Kind::Seek | Kind::Found | Kind::None => Phase::Clearing,
    }
}
