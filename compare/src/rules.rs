//! The seven rules of delivery. Each reads entries and says what to change; an
//! effect has no room for more than one link of the lot `to`.

use crate::graph::{Side, BITS};
use crate::model::{Fault, Kind, Message};

/// What the rules and the search read of a record. The seats are those of
/// seated lots.
pub(crate) trait Entries {
    fn number(&self, seat: u8) -> u64;
    fn vector(&self, seat: u8) -> u8;
    fn is_leaving(&self, seat: u8) -> bool;
    fn neighbour(&self, seat: u8, level: usize, side: Side) -> Option<u8>;

    /// Whether a test has put this fault in.
    fn has(&self, _: Fault) -> bool {
        false
    }
}

/// What a delivery does: sets at most one link of its own lot, at the message's
/// level, and sends messages.
#[derive(Clone, PartialEq, Eq, Debug, Default)]
pub struct Effect {
    pub set: Option<(Side, Option<u8>)>,
    pub sends: Sends,
}

/// A MEET that sets a link sends at most two MEET, a PROBE and a PULL.
const MOST_SENDS: usize = 4;

/// Up to four messages.
#[derive(Clone, PartialEq, Eq, Debug, Default)]
pub struct Sends([Option<Message>; MOST_SENDS]);

impl Sends {
    fn push(&mut self, message: Message) {
        let free = self.0.iter_mut().find(|place| place.is_none());
        *free.expect("no rule sends more") = Some(message);
    }

    fn push_if_any(&mut self, message: Option<Message>) {
        if let Some(message) = message {
            self.push(message);
        }
    }
}

impl IntoIterator for Sends {
    type Item = Message;
    type IntoIter = std::iter::Flatten<std::array::IntoIter<Option<Message>, MOST_SENDS>>;

    fn into_iter(self) -> Self::IntoIter {
        self.0.into_iter().flatten()
    }
}

impl Effect {
    fn nothing() -> Effect {
        Effect::default()
    }

    fn set(side: Side, link: Option<u8>) -> Effect {
        let set = Some((side, link));
        Effect {
            set,
            ..Effect::default()
        }
    }

    fn send(message: Message) -> Effect {
        Effect::send_if_any(Some(message))
    }

    fn send_if_any(message: Option<Message>) -> Effect {
        let mut effect = Effect::default();
        effect.sends.push_if_any(message);
        effect
    }
}

pub(crate) trait Rules: Entries {
    /// What the delivery of a pending message would do.
    fn effect(&self, m: Message) -> Effect {
        match m.kind() {
            Some(Kind::Meet) => self.meet(m),
            Some(Kind::Probe) => self.probe(m),
            Some(Kind::Pull) => self.pull(m),
            Some(Kind::Going) => self.going(m),
            Some(Kind::Seek) => self.seek(m),
            Some(Kind::Found) => Effect::set(self.side_toward(m.to, m.about), Some(m.about)),
            Some(Kind::None) => Effect::set(side_of(m), None),
            None => Effect::nothing(),
        }
    }

    fn meet(&self, m: Message) -> Effect {
        let side = self.side_toward(m.to, m.about);
        match self.link_at(m, side) {
            Some(link) if link == m.about => Effect::nothing(),
            Some(link) if self.is_nearer(m.to, link, m.about) => {
                Effect::send(Message::meet(link, m.about, m.level))
            }
            old => self.link_to_about(m, side, old),
        }
    }

    fn link_to_about(&self, m: Message, side: Side, old: Option<u8>) -> Effect {
        let mut effect = Effect::set(side, Some(m.about));
        let sends = &mut effect.sends;
        sends.push(Message::meet(m.about, m.to, m.level));
        if !self.has(Fault::OldNeighbourDropped) {
            sends.push_if_any(old.map(|old| Message::meet(m.about, old, m.level)));
        }
        if has_level_above(m) {
            sends.push(Message::probe(m.about, m.to, m.level));
            sends.push_if_any(self.pull_from_other_side(m, side.away()));
        } else if self.has(Fault::ProbeAtLevel8) {
            sends.push(Message::probe(m.about, m.to, m.level));
        }
        effect
    }

    /// The lots beyond the other link with the bit that `to` lacks may have
    /// a neighbour one level up across the new link.
    fn pull_from_other_side(&self, m: Message, other: Side) -> Option<Message> {
        if self.has(Fault::NoPull) {
            return None;
        }
        let wanted_bit = 1 - self.bit_at_level(m);
        let link = self.link_at(m, other)?;
        Some(Message::pull(link, wanted_bit, m.level, other))
    }

    fn probe(&self, m: Message) -> Effect {
        if self.share(m.to, m.about) > u32::from(m.level) {
            return Effect::send(Message::meet(m.to, m.about, m.level + 1));
        }
        let away = self.side_toward(m.to, m.about).away();
        let pass = |link| Message::probe(link, m.about, m.level);
        Effect::send_if_any(self.link_at(m, away).map(pass))
    }

    fn pull(&self, m: Message) -> Effect {
        let along = side_of(m);
        if self.bit_at_level(m) == m.about {
            let probe = |link| Message::probe(link, m.to, m.level);
            return Effect::send_if_any(self.link_at(m, along.away()).map(probe));
        }
        let pass = |link| Message::pull(link, m.about, m.level, along);
        Effect::send_if_any(self.link_at(m, along).map(pass))
    }

    fn going(&self, m: Message) -> Effect {
        let side = side_of(m);
        if self.is_leaving(m.to) {
            return self.leaver_told_of_leaver(side);
        }
        let seek = |link| Message::seek(link, m.to, m.level);
        Effect::send_if_any(self.link_at(m, side).map(seek))
    }

    fn leaver_told_of_leaver(&self, side: Side) -> Effect {
        if self.has(Fault::LeaverAltersItsLinks) {
            return Effect::set(side, None);
        }
        Effect::nothing()
    }

    fn seek(&self, m: Message) -> Effect {
        if !self.is_leaving(m.to) {
            return Effect::send(Message::found(m.about, m.to, m.level));
        }
        let away = self.side_toward(m.to, m.about).away();
        Effect::send(match self.link_at(m, away) {
            Some(link) => Message::seek(link, m.about, m.level),
            // From `about`, the leaver lies on the side that leads away from it.
            None => Message::none(m.about, m.level, away),
        })
    }

    /// The link of `to` at the message's level.
    fn link_at(&self, m: Message, side: Side) -> Option<u8> {
        self.neighbour(m.to, usize::from(m.level), side)
    }

    fn side_toward(&self, from: u8, other: u8) -> Side {
        Side::toward(self.number(from), self.number(other))
    }

    /// Of two lots on the same side of `from`, whether `one` is nearer.
    fn is_nearer(&self, from: u8, one: u8, other: u8) -> bool {
        let distance = |seat| self.number(from).abs_diff(self.number(seat));
        distance(one) < distance(other)
    }

    fn share(&self, one: u8, other: u8) -> u32 {
        let (one, other) = (self.vector(one), self.vector(other));
        if self.has(Fault::BitsFromTheLowEnd) {
            return (one ^ other).trailing_zeros();
        }
        shared_bits(one, other)
    }

    /// The bit of `to` numbered as the level; bit 0 is the highest.
    fn bit_at_level(&self, m: Message) -> u8 {
        let shift = BITS - 1 - usize::from(m.level);
        (self.vector(m.to) >> shift) & 1
    }
}

impl<E: Entries> Rules for E {}

/// The count of equal bits from the highest on.
pub fn shared_bits(one: u8, other: u8) -> u32 {
    (one ^ other).leading_zeros()
}

fn side_of(m: Message) -> Side {
    Side::from_number(m.side).expect("a pending message has side 0 or 1")
}

fn has_level_above(m: Message) -> bool {
    usize::from(m.level) < BITS
}
