//! A sound record before a call, to tell apart what the call meets.

use crate::graph::SEATS;
use crate::lent::message_at;
use crate::lent::place::{
    ENTRIES_AT, ENTRY, LINKS_AT, NUMBER_AT, PENDING_AT, PHASE_AT, PROBE, STATE_AT, VECTOR_AT,
};
use crate::model::{Message, Phase, State};

pub type Clearing = bool;
pub type Pending = bool;

pub const FREE: u8 = 0;
pub const STAYING: u8 = State::Staying as u8;
pub const LEAVING: u8 = State::Leaving as u8;
pub const RESERVED: u8 = State::Reserved as u8;

/// Its bytes.
#[derive(Clone, Copy)]
pub struct Before<'a> {
    pub record: &'a [u8],
}

impl<'a> Before<'a> {
    pub fn is_clearing(self) -> Clearing {
        self.record[PHASE_AT] == Phase::Clearing as u8
    }

    pub fn has_pending(self) -> Pending {
        self.record[PENDING_AT..].iter().any(|&byte| byte != 0)
    }

    /// The pending MEETs: their places are the first, up to those of PROBEs.
    pub fn meetings(self) -> impl Iterator<Item = Message> + 'a {
        self.pending(PROBE)
    }

    /// The pending messages of the first places, as many as are asked for.
    pub fn pending(self, places: usize) -> impl Iterator<Item = Message> + 'a {
        let bytes = self.record[PENDING_AT..][..places / 8].iter().enumerate();
        let bytes = bytes.filter(|(_, byte)| **byte != 0);
        bytes.flat_map(|(index, &byte)| {
            let bits = (0..8).filter(move |bit| byte >> bit & 1 == 1);
            bits.map(move |bit| message_at(index * 8 + bit))
        })
    }

    /// The seats in that state.
    pub fn count(self, state: u8) -> usize {
        let seats = 0..SEATS as u8;
        seats.filter(|&seat| self.state(seat) == state).count()
    }

    pub fn is_seated(self, seat: u8) -> bool {
        [STAYING, LEAVING].contains(&self.state(seat))
    }

    /// The seats of the seated lots, ascending.
    pub fn seated(self) -> impl Iterator<Item = u8> + 'a {
        (0..SEATS as u8).filter(move |&seat| self.is_seated(seat))
    }

    pub fn state(self, seat: u8) -> u8 {
        self.entry(seat)[STATE_AT]
    }

    pub fn number(self, seat: u8) -> u64 {
        let number = self.entry(seat)[NUMBER_AT..VECTOR_AT].iter();
        number.fold(0, |number, &byte| number << 8 | u64::from(byte))
    }

    pub fn vector(self, seat: u8) -> u8 {
        self.entry(seat)[VECTOR_AT]
    }

    /// The links of a seat, level by level, the left one first; 255 for none.
    pub fn links(self, seat: u8) -> &'a [u8] {
        &self.entry(seat)[LINKS_AT..]
    }

    fn entry(self, seat: u8) -> &'a [u8] {
        &self.record[ENTRIES_AT + ENTRY * usize::from(seat)..][..ENTRY]
    }
}
