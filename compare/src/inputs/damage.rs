//! Damage to the bytes of a record. Some of it leaves the record sound.

mod reserved;

use super::{entry_at, state};
use crate::graph::{LEVELS, SEATS};
use crate::lent::place::{
    link_at, ENTRY, LINKS_AT, NUMBER_AT, PENDING_AT, PHASE_AT, PLACES, STATE_AT, VECTOR_AT,
};
use crate::lent::{messages, place_of, SIZE};
use crate::model::Message;
use crate::random::Random;

type Damage = fn(&mut [u8], &mut Random);

const DAMAGES: [(Damage, usize); 18] = [
    (bit_flipped, 4),
    (entry_bit_flipped, 6),
    (byte_replaced, 3),
    (entry_byte_replaced, 6),
    (entries_swapped, 3),
    (entry_copied, 3),
    (bytes_copied, 4),
    (link_redirected, 12),
    (message_set, 10),
    (message_between_lots_set, 10),
    (meeting_set, 10),
    (phase_changed, 4),
    (free_seat_dirtied, 5),
    (state_changed, 8),
    (number_copied, 4),
    (vector_bit_flipped, 5),
    (reserved::damaged, 12),
    (all_replaced, 2),
];

/// Damages a record of the right size, once or a few times, or gives it
/// another size.
pub fn damage(bytes: &mut Vec<u8>, random: &mut Random) {
    if random.one_in(10) {
        return other_length(bytes, random);
    }
    random.pick_weighted(&DAMAGES)(bytes, random);
    while random.one_in(4) {
        random.pick_weighted(&DAMAGES)(bytes, random);
    }
}

fn some_seat(random: &mut Random) -> usize {
    random.below(SEATS)
}

/// A seat with a lot, if any is met soon.
fn some_lot(bytes: &[u8], random: &mut Random) -> usize {
    let start = some_seat(random);
    let mut seats = (start..start + SEATS).map(|seat| seat % SEATS);
    seats.find(|&seat| state(bytes, seat) != 0).unwrap_or(start)
}

fn bit_flipped(bytes: &mut [u8], random: &mut Random) {
    bytes[random.below(SIZE)] ^= 1 << random.below(8);
}

fn entry_bit_flipped(bytes: &mut [u8], random: &mut Random) {
    let at = entry_at(some_lot(bytes, random)) + random.below(ENTRY);
    bytes[at] ^= 1 << random.below(8);
}

fn byte_replaced(bytes: &mut [u8], random: &mut Random) {
    bytes[random.below(SIZE)] = random.byte();
}

fn entry_byte_replaced(bytes: &mut [u8], random: &mut Random) {
    let at = entry_at(some_lot(bytes, random)) + random.below(ENTRY);
    bytes[at] = random.byte();
}

fn other_length(bytes: &mut Vec<u8>, random: &mut Random) {
    let any = random.below(SIZE + 64);
    let lengths = [
        0,
        1,
        SIZE - 1,
        SIZE + 1,
        PENDING_AT,
        SIZE - 8,
        SIZE + 8,
        any,
    ];
    bytes.resize(random.pick(&lengths), random.byte());
}

fn entries_swapped(bytes: &mut [u8], random: &mut Random) {
    let (one, other) = (some_lot(bytes, random), some_seat(random));
    for field in 0..ENTRY {
        bytes.swap(entry_at(one) + field, entry_at(other) + field);
    }
}

fn entry_copied(bytes: &mut [u8], random: &mut Random) {
    let from = entry_at(some_lot(bytes, random));
    bytes.copy_within(from..from + ENTRY, entry_at(some_seat(random)));
}

fn bytes_copied(bytes: &mut [u8], random: &mut Random) {
    let length = 1 + random.below(40);
    let places = match random.one_in(2) {
        true => PENDING_AT,
        false => SIZE,
    };
    let from = random.below(places - length);
    bytes.copy_within(from..from + length, random.below(places - length));
}

fn link_redirected(bytes: &mut [u8], random: &mut Random) {
    let seat = some_lot(bytes, random);
    let at = entry_at(seat) + link_at(random.below(LEVELS), random.below(2));
    bytes[at] = match random.below(8) {
        0 => random.pick(&[64, 65, 127, 128, 191, 192, 254]),
        1 => seat as u8,
        2 => 255,
        3 => some_seat(random) as u8,
        _ => some_lot(bytes, random) as u8,
    };
}

fn set(bytes: &mut [u8], place: usize) {
    bytes[PENDING_AT + place / 8] |= 1 << (place % 8);
}

/// Of each kind as often, at any place of it.
fn message_set(bytes: &mut [u8], random: &mut Random) {
    let kind = 1 + random.below(7) as u8;
    let first = messages().partition_point(|message| message.kind < kind);
    let end = messages().partition_point(|message| message.kind <= kind);
    set(bytes, first + random.below(end - first));
}

/// Of each kind as often, between lots, at any level.
fn message_between_lots_set(bytes: &mut [u8], random: &mut Random) {
    let mut message = messages()[random.below(PLACES)];
    message.kind = 1 + random.below(7) as u8;
    message.to = some_lot(bytes, random) as u8;
    message.side = 0;
    message.about = match message.kind {
        3 => random.below(2) as u8,
        4 | 7 => 0,
        _ => some_lot(bytes, random) as u8,
    };
    if let Ok(place) = messages().binary_search(&message) {
        set(bytes, place);
    }
}

/// At level 0, as of a merge.
fn meeting_set(bytes: &mut [u8], random: &mut Random) {
    let [to, about] = [(); 2].map(|()| some_lot(bytes, random) as u8);
    let place = place_of(Message::meet(to, about, 0)).expect("seats have a place");
    bytes[PENDING_AT + place / 8] |= 1 << (place % 8);
}

fn phase_changed(bytes: &mut [u8], random: &mut Random) {
    let any = random.byte();
    bytes[PHASE_AT] = match random.one_in(4) {
        true => random.pick(&[2, 128, 255, any]),
        false => bytes[PHASE_AT] ^ 1,
    };
}

fn free_seat_dirtied(bytes: &mut [u8], random: &mut Random) {
    let start = some_seat(random);
    let mut seats = (start..start + SEATS).map(|seat| seat % SEATS);
    if let Some(seat) = seats.find(|&seat| state(bytes, seat) == 0) {
        let at = entry_at(seat) + 1 + random.below(ENTRY - 1);
        bytes[at] ^= random.byte().max(1);
    }
}

fn state_changed(bytes: &mut [u8], random: &mut Random) {
    let at = entry_at(some_lot(bytes, random)) + STATE_AT;
    let other = [0, 3, 4, 128, 255];
    bytes[at] = match random.one_in(3) {
        true => random.pick(&other),
        false => 3u8.wrapping_sub(bytes[at]),
    };
}

fn number_copied(bytes: &mut [u8], random: &mut Random) {
    let from = entry_at(some_lot(bytes, random));
    let to = entry_at(some_lot(bytes, random));
    bytes.copy_within(from + NUMBER_AT..from + VECTOR_AT, to + NUMBER_AT);
}

fn vector_bit_flipped(bytes: &mut [u8], random: &mut Random) {
    let at = entry_at(some_lot(bytes, random)) + VECTOR_AT;
    bytes[at] ^= 1 << random.below(8);
}

fn all_replaced(bytes: &mut [u8], random: &mut Random) {
    match random.below(4) {
        0 => bytes.fill(0),
        1 => bytes.fill(255),
        2 => bytes.iter_mut().for_each(|byte| *byte = random.byte()),
        // An empty record but for the links.
        _ => {
            bytes.fill(0);
            bytes[entry_at(0) + LINKS_AT] = random.byte();
        }
    }
}
