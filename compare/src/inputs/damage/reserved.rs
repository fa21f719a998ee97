//! Damage to reserved lots, and to what may not name them.

use super::{set, some_lot, some_seat};
use crate::graph::{LEVELS, SEATS, SIDES};
use crate::inputs::{entry_at, is_reserved, is_seated, state};
use crate::lent::place::{
    link_at, ENTRIES_AT, ENTRY, LINKS_AT, NO_LINK, NUMBER_AT, PENDING_AT, PHASE_AT, STATE_AT,
    VECTOR_AT,
};
use crate::lent::place_of;
use crate::model::{Message, State};
use crate::random::Random;

/// Where no lot is reserved, first makes one of a free seat: with number and vector
/// 0, which may be sound.
pub(super) fn damaged(bytes: &mut [u8], random: &mut Random) {
    let seat = match some(bytes, is_reserved, random) {
        Some(seat) => seat,
        None => match some(bytes, |state| state == 0, random) {
            Some(seat) => {
                bytes[entry_at(seat) + STATE_AT] = State::Reserved as u8;
                seat
            }
            None => return,
        },
    };
    match random.below(10) {
        0 | 1 => linked(bytes, seat, random),
        2 => number_copied(bytes, seat, is_seated, random),
        3 => number_copied(bytes, seat, is_reserved, random),
        4 => named_by_link(bytes, seat, random),
        5 => named_by_message(bytes, seat, random),
        6 => bytes[entry_at(seat) + STATE_AT] += 1,
        7 | 8 => all_reserved(bytes),
        _ => {}
    }
}

/// A seat whose state is wanted.
fn some(bytes: &[u8], wanted: impl Fn(u8) -> bool, random: &mut Random) -> Option<usize> {
    let start = some_seat(random);
    let mut seats = (start..start + SEATS).map(|seat| seat % SEATS);
    seats.find(|&seat| wanted(state(bytes, seat)))
}

/// No lot is seated any more, and nothing is pending: sound if the record was.
fn all_reserved(bytes: &mut [u8]) {
    for entry in bytes[ENTRIES_AT..PENDING_AT].chunks_mut(ENTRY) {
        if entry[STATE_AT] != 0 {
            entry[STATE_AT] = State::Reserved as u8;
            entry[LINKS_AT..].fill(NO_LINK);
        }
    }
    bytes[PENDING_AT..].fill(0);
}

fn linked(bytes: &mut [u8], seat: usize, random: &mut Random) {
    let at = entry_at(seat) + link_at(random.below(LEVELS), random.below(2));
    bytes[at] = some_lot(bytes, random) as u8;
}

fn number_copied(bytes: &mut [u8], seat: usize, of: impl Fn(u8) -> bool, random: &mut Random) {
    if let Some(other) = some(bytes, of, random) {
        let from = entry_at(other);
        bytes.copy_within(
            from + NUMBER_AT..from + VECTOR_AT,
            entry_at(seat) + NUMBER_AT,
        );
    }
}

/// On the side where it lies.
fn named_by_link(bytes: &mut [u8], seat: usize, random: &mut Random) {
    if let Some(other) = some(bytes, is_seated, random) {
        let number = |seat| {
            let at = entry_at(seat);
            bytes[at + NUMBER_AT..at + VECTOR_AT].to_vec()
        };
        let side = usize::from(number(other) < number(seat));
        bytes[entry_at(other) + link_at(0, side)] = seat as u8;
    }
}

/// Of a kind of the phase, at level 0, with a staying lot if there is one.
fn named_by_message(bytes: &mut [u8], seat: usize, random: &mut Random) {
    let stays = |state| state == State::Staying as u8;
    let other = some(bytes, stays, random).unwrap_or(seat) as u8;
    let seat = seat as u8;
    let (to, about) = random.pick(&[(seat, other), (other, seat)]);
    let side = random.pick(&SIDES);
    let message = match (bytes[PHASE_AT], random.below(4)) {
        (0, 0 | 1) => Message::meet(to, about, 0),
        (0, 2) => Message::probe(to, about, 0),
        (0, _) => Message::pull(seat, random.below(2) as u8, 0, side),
        (_, 0) => Message::seek(to, about, 0),
        (_, 1) => Message::found(to, about, 0),
        (_, 2) => Message::going(seat, 0, side),
        (_, _) => Message::none(seat, 0, side),
    };
    set(bytes, place_of(message).expect("the message has a place"));
}
