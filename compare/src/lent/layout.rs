//! The layout of docs/RECORD.md: where each field lies, and the place of each
//! message among the pending bits.

use crate::graph::{BITS, LEVELS, SEATS};
use crate::model::{Kind, Message};

/// The size of a record.
pub const SIZE: usize = PENDING_AT + PENDING;

pub const PHASE_AT: usize = 0;
pub const ENTRIES_AT: usize = 1;
pub const PENDING_AT: usize = ENTRIES_AT + SEATS * ENTRY;

/// The size of an entry, and the fields within it.
pub const ENTRY: usize = LINKS_AT + LEVELS * SIDE_COUNT;
pub const STATE_AT: usize = 0;
pub const NUMBER_AT: usize = 1;
pub const VECTOR_AT: usize = NUMBER_AT + size_of::<u64>();
pub const LINKS_AT: usize = VECTOR_AT + BITS / 8;

/// A link to none.
pub const NO_LINK: u8 = 255;

pub type Bytes = [u8; SIZE];
pub type Entry = [u8; ENTRY];

/// The entry of a free seat.
pub const FREE: Entry = {
    let mut entry = [NO_LINK; ENTRY];
    let mut at = 0;
    while at < LINKS_AT {
        entry[at] = 0;
        at += 1;
    }
    entry
};

/// The bytes of the pending bits.
pub const PENDING: usize = PLACES / 8;

/// The bits of a word; the pending bits are whole words.
pub const WORD: usize = 64;
/// The words of the pending bits.
pub const WORDS: usize = PLACES / WORD;
const _: () = assert!(PLACES.is_multiple_of(WORD));

const SIDE_COUNT: usize = 2;
/// The first place of each kind; a kind's places end where the next begin.
pub const MEET: usize = 0;
pub const PROBE: usize = MEET + SEATS * SEATS * LEVELS;
pub const PULL: usize = PROBE + SEATS * SEATS * BITS;
pub const GOING: usize = PULL + SEATS * 2 * BITS * SIDE_COUNT;
pub const SEEK: usize = GOING + SEATS * LEVELS * SIDE_COUNT;
pub const FOUND: usize = SEEK + SEATS * SEATS * LEVELS;
pub const NONE: usize = FOUND + SEATS * SEATS * LEVELS;
pub const PLACES: usize = NONE + SEATS * LEVELS * SIDE_COUNT;

/// Where a link lies in its entry.
#[inline]
pub fn link_at(level: usize, side: usize) -> usize {
    LINKS_AT + level * SIDE_COUNT + side
}

/// The place of five numbers, or none if they are no message at all.
#[inline]
pub fn place_of(m: Message) -> Option<usize> {
    match m.kind()? {
        Kind::Meet => Some(MEET + pair(m, LEVELS)?),
        Kind::Probe => Some(PROBE + pair(m, BITS)?),
        Kind::Pull => {
            let bit = bit_place(field(m.to, SEATS)?, field(m.about, 2)?);
            Some(PULL + level_and_side(bit, m, BITS)?)
        }
        Kind::Going => Some(GOING + sided(m)?),
        Kind::Seek => Some(SEEK + pair(m, LEVELS)?),
        Kind::Found => Some(FOUND + pair(m, LEVELS)?),
        Kind::None => Some(NONE + sided(m)?),
    }
}

#[inline]
fn field(value: u8, count: usize) -> Option<usize> {
    Some(usize::from(value)).filter(|&value| value < count)
}

/// Of a kind with two lots, a level and side 0.
#[inline]
fn pair(m: Message, levels: usize) -> Option<usize> {
    let (to, about) = (field(m.to, SEATS)?, field(m.about, SEATS)?);
    field(m.side, 1)?;
    Some(pair_place(to, about, field(m.level, levels)?, levels))
}

/// Of a kind with a lot, a level and a side.
#[inline]
fn sided(m: Message) -> Option<usize> {
    field(m.about, 1)?;
    level_and_side(field(m.to, SEATS)?, m, LEVELS)
}

#[inline]
fn level_and_side(before: usize, m: Message, levels: usize) -> Option<usize> {
    let (level, side) = (field(m.level, levels)?, field(m.side, SIDE_COUNT)?);
    Some(sided_place(before, level, side, levels))
}

/// Where a message stands among those of a kind with two lots and a level.
#[inline]
pub fn pair_place(to: usize, about: usize, level: usize, levels: usize) -> usize {
    (to * SEATS + about) * levels + level
}

/// Where a message stands among those of a kind with a side; `before` is the
/// lot, of a PULL its [`bit_place`].
#[inline]
pub fn sided_place(before: usize, level: usize, side: usize, levels: usize) -> usize {
    (before * levels + level) * SIDE_COUNT + side
}

/// The lot and the wanted bit of a PULL.
#[inline]
pub fn bit_place(to: usize, bit: usize) -> usize {
    to * 2 + bit
}

/// The message at a place below [`PLACES`].
#[inline]
pub fn message_at(place: usize) -> Message {
    match place {
        ..PROBE => pair_message(Kind::Meet, place - MEET, LEVELS),
        PROBE..PULL => pair_message(Kind::Probe, place - PROBE, BITS),
        PULL..GOING => {
            let (before, level, side) = sided_at(place - PULL, BITS);
            let (to, bit) = bit_at(before);
            message(Kind::Pull, to, bit, level, side)
        }
        GOING..SEEK => {
            let (to, level, side) = sided_at(place - GOING, LEVELS);
            message(Kind::Going, to, 0, level, side)
        }
        SEEK..FOUND => pair_message(Kind::Seek, place - SEEK, LEVELS),
        FOUND..NONE => pair_message(Kind::Found, place - FOUND, LEVELS),
        NONE.. => {
            let (to, level, side) = sided_at(place - NONE, LEVELS);
            message(Kind::None, to, 0, level, side)
        }
    }
}

#[inline]
fn pair_message(kind: Kind, place: usize, levels: usize) -> Message {
    let (to, about, level) = pair_at(place, levels);
    message(kind, to, about, level, 0)
}

/// The two lots and the level of [`pair_place`].
#[inline]
pub fn pair_at(place: usize, levels: usize) -> (usize, usize, usize) {
    let lots = place / levels;
    (lots / SEATS, lots % SEATS, place % levels)
}

/// What is before, the level and the side of [`sided_place`].
#[inline]
pub fn sided_at(place: usize, levels: usize) -> (usize, usize, usize) {
    let (level, side) = (place / SIDE_COUNT, place % SIDE_COUNT);
    (level / levels, level % levels, side)
}

/// The lot and the wanted bit of [`bit_place`].
#[inline]
pub fn bit_at(place: usize) -> (usize, usize) {
    (place / 2, place % 2)
}

#[inline]
fn message(kind: Kind, to: usize, about: usize, level: usize, side: usize) -> Message {
    Message {
        kind: kind as u8,
        to: to as u8,
        about: about as u8,
        level: level as u8,
        side: side as u8,
    }
}

#[cfg(test)]
mod tests {
    use super::*;

    #[test]
    fn sizes_are_those_of_the_document() {
        assert_eq!(
            (SIZE, PENDING_AT, ENTRY, PLACES),
            (20_257, 1_793, 28, 147_712)
        );
        let first = [PROBE, PULL, GOING, SEEK, FOUND, NONE];
        assert_eq!(first, [36_864, 69_632, 71_680, 72_832, 109_696, 146_560]);
    }

    #[test]
    fn a_message_stands_at_its_place() {
        for place in 0..PLACES {
            assert_eq!(place_of(message_at(place)), Some(place));
        }
    }
}
