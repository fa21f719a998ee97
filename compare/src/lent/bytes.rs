//! A model as bytes and back, by docs/RECORD.md. The place of a message is
//! found by putting all messages in order, not by the formulas of `layout`.

use super::layout::{
    link_at, ENTRIES_AT, ENTRY, NO_LINK, NUMBER_AT, PENDING_AT, PHASE_AT, SIZE, STATE_AT, VECTOR_AT,
};
use crate::graph::{Links, BITS, LEVELS, NO_LINKS, SEATS, SIDES};
use crate::model::{Lot, Lots, Message, Model, Phase, State};
use std::collections::BTreeSet;
use std::sync::OnceLock;

/// All messages that can exist, ascending: the one at index i has place i.
pub fn messages() -> &'static [Message] {
    static MESSAGES: OnceLock<Vec<Message>> = OnceLock::new();
    MESSAGES.get_or_init(|| {
        let mut all = Vec::new();
        for kind in 1..=7 {
            let (abouts, levels, sides) = ranges(kind);
            for to in 0..SEATS as u8 {
                let numbers = |about, level| (0..sides).map(move |side| (about, level, side));
                let rest = (0..abouts).flat_map(|about| (0..levels).map(move |l| (about, l)));
                let rest = rest.flat_map(|(about, level)| numbers(about, level));
                all.extend(rest.map(|(about, level, side)| Message {
                    kind,
                    to,
                    about,
                    level,
                    side,
                }));
            }
        }
        all
    })
}

/// How many values a kind allows for `about`, level and side.
fn ranges(kind: u8) -> (u8, u8, u8) {
    let (seats, bits, levels) = (SEATS as u8, BITS as u8, LEVELS as u8);
    match kind {
        2 => (seats, bits, 1),
        3 => (2, bits, 2),
        4 | 7 => (1, levels, 2),
        _ => (seats, levels, 1),
    }
}

pub fn to_bytes(model: &Model) -> Vec<u8> {
    let mut bytes = vec![0; SIZE];
    bytes[PHASE_AT] = model.phase() as u8;
    for seat in 0..SEATS {
        let at = ENTRIES_AT + ENTRY * seat;
        write_entry(model.lot(seat as u8).ok(), &mut bytes[at..at + ENTRY]);
    }
    for message in model.pending() {
        let place = messages().binary_search(message);
        let place = place.expect("a pending message is one of all");
        bytes[PENDING_AT + place / 8] |= 1 << (place % 8);
    }
    bytes
}

fn write_entry(lot: Option<&Lot>, entry: &mut [u8]) {
    let links = lot.map_or(NO_LINKS, |lot| lot.links);
    for (level, pair) in links.iter().enumerate() {
        for side in SIDES {
            let link = pair[side as usize].unwrap_or(NO_LINK);
            entry[link_at(level, side as usize)] = link;
        }
    }
    if let Some(lot) = lot {
        entry[STATE_AT] = lot.state as u8;
        entry[NUMBER_AT..VECTOR_AT].copy_from_slice(&lot.number.to_be_bytes());
        entry[VECTOR_AT] = lot.vector;
    }
}

/// The model of a record, or none if its bytes are no sound record: a field
/// has no meaning, the meaning is not sound, or it has other bytes.
pub fn from_bytes(bytes: &[u8]) -> Option<Model> {
    if bytes.len() != SIZE {
        return None;
    }
    let phase = match bytes[PHASE_AT] {
        0 => Phase::Open,
        1 => Phase::Clearing,
        _ => return None,
    };
    let mut lots: Lots = [const { None }; SEATS];
    for (seat, lot) in lots.iter_mut().enumerate() {
        let at = ENTRIES_AT + ENTRY * seat;
        *lot = read_entry(&bytes[at..at + ENTRY])?;
    }
    let model = Model::from_parts(lots, phase, read_pending(bytes)).ok()?;
    (to_bytes(&model) == bytes).then_some(model)
}

/// None if a field has no meaning, `Some(None)` for a free seat.
fn read_entry(entry: &[u8]) -> Option<Option<Lot>> {
    let state = match entry[STATE_AT] {
        0 => return Some(None),
        1 => State::Staying,
        2 => State::Leaving,
        3 => State::Reserved,
        _ => return None,
    };
    let number = entry[NUMBER_AT..VECTOR_AT].iter();
    let number = number.fold(0, |number, &byte| number << 8 | u64::from(byte));
    Some(Some(Lot {
        number,
        vector: entry[VECTOR_AT],
        state,
        links: read_links(entry)?,
    }))
}

fn read_links(entry: &[u8]) -> Option<Links> {
    let mut links = NO_LINKS;
    for (level, pair) in links.iter_mut().enumerate() {
        for side in SIDES {
            pair[side as usize] = match entry[link_at(level, side as usize)] {
                NO_LINK => None,
                seat if usize::from(seat) < SEATS => Some(seat),
                _ => return None,
            };
        }
    }
    Some(links)
}

fn read_pending(bytes: &[u8]) -> BTreeSet<Message> {
    let mut pending = BTreeSet::new();
    for (byte, eight) in bytes[PENDING_AT..].iter().zip(messages().chunks(8)) {
        if *byte != 0 {
            let set = |(bit, _): &(usize, _)| byte >> bit & 1 == 1;
            let set = eight.iter().enumerate().filter(set);
            pending.extend(set.map(|(_, message)| message));
        }
    }
    pending
}

#[cfg(test)]
mod tests {
    use super::super::layout::{message_at, place_of, PLACES};
    use super::*;

    #[test]
    fn the_formulas_give_the_order_of_the_messages() {
        assert!(messages().is_sorted());
        assert_eq!(messages().len(), PLACES);
        for (place, &message) in messages().iter().enumerate() {
            assert_eq!(place_of(message), Some(place));
            assert_eq!(message_at(place), message);
        }
    }

    #[test]
    fn five_numbers_that_are_no_message_have_no_place() {
        let edges = [0, 1, 2, 7, 8, 9, 62, 63, 64, 128, 255];
        for index in 0..edges.len().pow(5) {
            let number = |power: u32| edges[index / edges.len().pow(power) % edges.len()];
            let message = Message {
                kind: number(0),
                to: number(1),
                about: number(2),
                level: number(3),
                side: number(4),
            };
            let place = messages().binary_search(&message).ok();
            assert_eq!(place_of(message), place, "{message:?}");
        }
    }
}
