//! Deliveries by the bundle. With the soundness test in front only once, the
//! time is that of the rules: they stand here a second time, on places in place
//! of messages, and tests hold them against `rules`.

use super::layout::*;
use super::pending::Pending;
use super::record::number_of;
use crate::graph::{Side, BITS, LEVELS, SEATS};
use crate::model::{shared_bits, State};

/// A sound record whose messages are being delivered.
pub struct Bundle<'a> {
    pub entries: &'a mut [Entry; SEATS],
    pub pending: Pending<'a>,
}

impl Bundle<'_> {
    /// Delivers the smallest message until none is pending or the limit is
    /// reached; the count.
    pub fn deliver(&mut self, limit: u16) -> u16 {
        let mut delivered = 0;
        while delivered < limit {
            let Some(place) = self.pending.take_smallest() else {
                break;
            };
            self.rule(place);
            delivered += 1;
        }
        delivered
    }

    /// Does the rule of the message at a place.
    #[inline]
    fn rule(&mut self, place: usize) {
        match place {
            ..PROBE => {
                let (to, about, level) = pair_at(place - MEET, LEVELS);
                self.meet(to, about, level);
            }
            PROBE..PULL => {
                let (to, about, level) = pair_at(place - PROBE, BITS);
                self.probe(to, about, level);
            }
            PULL..GOING => {
                let (before, level, side) = sided_at(place - PULL, BITS);
                let (to, wanted) = bit_at(before);
                self.pull(to, wanted, level, side);
            }
            GOING..SEEK => {
                let (to, level, side) = sided_at(place - GOING, LEVELS);
                self.going(to, level, side);
            }
            SEEK..FOUND => {
                let (to, about, level) = pair_at(place - SEEK, LEVELS);
                self.seek(to, about, level);
            }
            FOUND..NONE => {
                let (to, about, level) = pair_at(place - FOUND, LEVELS);
                let side = self.side_toward(to, about);
                self.set(to, level, side, about as u8);
            }
            NONE.. => {
                let (to, level, side) = sided_at(place - NONE, LEVELS);
                self.set(to, level, side, NO_LINK);
            }
        }
    }

    #[inline]
    fn meet(&mut self, to: usize, about: usize, level: usize) {
        let side = self.side_toward(to, about);
        if let Some(old) = self.link(to, level, side) {
            if old == about {
                return;
            }
            // Both lie on one side of `to`: the nearer has the other beyond it.
            if self.side_toward(old, about) == side {
                return self.send_meet(old, about, level);
            }
            self.send_meet(about, old, level);
        }
        self.set(to, level, side, about as u8);
        self.send_meet(about, to, level);
        if level < BITS {
            self.send_probe(about, to, level);
            if let Some(link) = self.link(to, level, away(side)) {
                self.send_pull(link, 1 - self.bit(to, level), level, away(side));
            }
        }
    }

    #[inline]
    fn probe(&mut self, to: usize, about: usize, level: usize) {
        let shared = shared_bits(self.vector(to), self.vector(about)) as usize;
        if shared > level {
            return self.send_meet(to, about, level + 1);
        }
        let side = away(self.side_toward(to, about));
        if let Some(link) = self.link(to, level, side) {
            self.send_probe(link, about, level);
        }
    }

    #[inline]
    fn pull(&mut self, to: usize, wanted: usize, level: usize, along: usize) {
        if self.bit(to, level) == wanted {
            if let Some(link) = self.link(to, level, away(along)) {
                self.send_probe(link, to, level);
            }
        } else if let Some(link) = self.link(to, level, along) {
            self.send_pull(link, wanted, level, along);
        }
    }

    #[inline]
    fn going(&mut self, to: usize, level: usize, side: usize) {
        if self.is_leaving(to) {
            return;
        }
        if let Some(link) = self.link(to, level, side) {
            self.send_seek(link, to, level);
        }
    }

    #[inline]
    fn seek(&mut self, to: usize, about: usize, level: usize) {
        if !self.is_leaving(to) {
            let place = FOUND + pair_place(about, to, level, LEVELS);
            return self.pending.send(place);
        }
        let side = away(self.side_toward(to, about));
        match self.link(to, level, side) {
            Some(link) => self.send_seek(link, about, level),
            None => {
                let place = NONE + sided_place(about, level, side, LEVELS);
                self.pending.send(place);
            }
        }
    }

    #[inline]
    fn send_meet(&mut self, to: usize, about: usize, level: usize) {
        self.pending
            .send(MEET + pair_place(to, about, level, LEVELS));
    }

    #[inline]
    fn send_probe(&mut self, to: usize, about: usize, level: usize) {
        self.pending
            .send(PROBE + pair_place(to, about, level, BITS));
    }

    #[inline]
    fn send_pull(&mut self, to: usize, bit: usize, level: usize, side: usize) {
        self.pending
            .send(PULL + sided_place(bit_place(to, bit), level, side, BITS));
    }

    #[inline]
    fn send_seek(&mut self, to: usize, about: usize, level: usize) {
        self.pending
            .send(SEEK + pair_place(to, about, level, LEVELS));
    }

    #[inline]
    fn entry(&self, seat: usize) -> &Entry {
        &self.entries[seat % SEATS]
    }

    #[inline]
    fn vector(&self, seat: usize) -> u8 {
        self.entry(seat)[VECTOR_AT]
    }

    /// The bit of the lot's vector numbered as the level.
    #[inline]
    fn bit(&self, seat: usize, level: usize) -> usize {
        usize::from(self.vector(seat) >> (BITS - 1 - level) & 1)
    }

    #[inline]
    fn is_leaving(&self, seat: usize) -> bool {
        self.entry(seat)[STATE_AT] == State::Leaving as u8
    }

    #[inline]
    fn side_toward(&self, from: usize, other: usize) -> usize {
        let number = |seat| number_of(self.entry(seat));
        Side::toward(number(from), number(other)) as usize
    }

    #[inline]
    fn link(&self, seat: usize, level: usize, side: usize) -> Option<usize> {
        let link = self.entry(seat)[link_at(level, side)];
        (link != NO_LINK).then_some(usize::from(link))
    }

    #[inline]
    fn set(&mut self, seat: usize, level: usize, side: usize, link: u8) {
        self.entries[seat % SEATS][link_at(level, side)] = link;
    }
}

#[inline]
fn away(side: usize) -> usize {
    1 - side
}
