//! Fields of a record of the right size, read and written where they lie.

use super::layout::*;
use super::pending::Bits;
use crate::graph::{Side, SEATS};
use crate::model::{Message, State};
use crate::rules::Entries;

/// A sound record to read. Seats are those of seats: below 64.
#[derive(Clone, Copy)]
pub struct Record<'a>(pub &'a Bytes);

impl<'a> Record<'a> {
    #[inline]
    pub fn entries(self) -> &'a [Entry; SEATS] {
        let (entries, _) = self.0[ENTRIES_AT..PENDING_AT].as_chunks();
        entries.try_into().expect("an entry for each seat")
    }

    #[inline]
    pub fn entry(self, seat: u8) -> &'a Entry {
        &self.entries()[usize::from(seat) % SEATS]
    }

    #[inline]
    pub fn is_clearing(self) -> bool {
        self.0[PHASE_AT] != 0
    }

    #[inline]
    pub fn is_free(self, seat: u8) -> bool {
        self.entry(seat)[STATE_AT] == 0
    }

    /// Whether the seat's lot is staying or leaving.
    #[inline]
    pub fn is_seated(self, seat: u8) -> bool {
        !self.is_free(seat) && !self.is_reserved(seat)
    }

    #[inline]
    pub fn is_reserved(self, seat: u8) -> bool {
        self.entry(seat)[STATE_AT] == State::Reserved as u8
    }

    #[inline]
    pub fn is_pending(self, place: usize) -> bool {
        self.0[PENDING_AT + place / 8] >> (place % 8) & 1 == 1
    }
}

#[inline]
pub fn number_of(entry: &Entry) -> u64 {
    let bytes = entry[NUMBER_AT..VECTOR_AT].try_into();
    u64::from_be_bytes(bytes.expect("a number has eight bytes"))
}

impl Entries for Record<'_> {
    #[inline]
    fn number(&self, seat: u8) -> u64 {
        number_of(self.entry(seat))
    }

    #[inline]
    fn vector(&self, seat: u8) -> u8 {
        self.entry(seat)[VECTOR_AT]
    }

    #[inline]
    fn is_leaving(&self, seat: u8) -> bool {
        self.entry(seat)[STATE_AT] == State::Leaving as u8
    }

    #[inline]
    fn neighbour(&self, seat: u8, level: usize, side: Side) -> Option<u8> {
        let link = self.entry(seat)[link_at(level, side as usize)];
        (link != NO_LINK).then_some(link)
    }
}

#[inline]
pub fn entries_mut(bytes: &mut Bytes) -> &mut [Entry; SEATS] {
    let (entries, _) = bytes[ENTRIES_AT..PENDING_AT].as_chunks_mut();
    entries.try_into().expect("an entry for each seat")
}

/// The entries and the pending bits.
#[inline]
pub fn parts_mut(bytes: &mut Bytes) -> (&mut [Entry; SEATS], &mut Bits) {
    let (entries, bits) = bytes[ENTRIES_AT..].split_at_mut(PENDING_AT - ENTRIES_AT);
    let (entries, _) = entries.as_chunks_mut();
    let (bits, _) = bits.as_chunks_mut();
    let entries = entries.try_into().expect("an entry for each seat");
    (entries, bits.try_into().expect("whole words"))
}

#[inline]
pub fn entry_mut(bytes: &mut Bytes, seat: u8) -> &mut Entry {
    &mut entries_mut(bytes)[usize::from(seat) % SEATS]
}

/// Makes a message pending that fits its kind.
#[inline]
pub fn send(bytes: &mut Bytes, message: Message) {
    if let Some(place) = place_of(message) {
        send_at(bytes, place);
    }
}

/// Makes the message of a place pending.
#[inline]
pub fn send_at(bytes: &mut Bytes, place: usize) {
    bytes[PENDING_AT + place / 8] |= 1 << (place % 8);
}

#[inline]
pub fn take_away(bytes: &mut Bytes, place: usize) {
    bytes[PENDING_AT + place / 8] &= !(1 << (place % 8));
}
