//! The ways to a seat: a join in one step, or a reservation that is confirmed or
//! given back later.

use super::layout::*;
use super::record::{entry_mut, number_of, send, Record};
use super::sound::{self, Sound};
use super::{must_be_open, must_be_seat, of_size};
use crate::model::{Message, Refusal, State, NO_CONTACT};

/// Seats a lot and tells its contact of it. Refusals: 1, 2, 3, 7, 4, 5, 6.
pub fn join(
    bytes: &mut [u8],
    seat: u8,
    number: u64,
    vector: u8,
    contact: u8,
) -> Result<(), Refusal> {
    let sound = sound::test(bytes)?;
    must_be_contact(contact)?;
    may_reserve(sound.record, seat, number)?;
    must_have_contact(&sound, contact)?;
    let bytes = of_size(bytes)?;
    write(bytes, seat, State::Staying, number, vector);
    tell(bytes, seat, contact);
    Ok(())
}

/// Holds a seat, a number and a vector for a lot, and sends nothing.
/// Refusals: 1, 2, 3, 7, 4, 5.
pub fn reserve(bytes: &mut [u8], seat: u8, number: u64, vector: u8) -> Result<(), Refusal> {
    may_reserve(sound::test(bytes)?.record, seat, number)?;
    write(of_size(bytes)?, seat, State::Reserved, number, vector);
    Ok(())
}

/// Seats a reserved lot and tells its contact of it. Refusals: 1, 2, 3, 7, 14, 6.
pub fn confirm(bytes: &mut [u8], seat: u8, contact: u8) -> Result<(), Refusal> {
    let sound = sound::test(bytes)?;
    must_be_seat(seat)?;
    must_be_contact(contact)?;
    must_be_open(sound.record)?;
    must_be_reserved(sound.record, seat)?;
    must_have_contact(&sound, contact)?;
    let bytes = of_size(bytes)?;
    entry_mut(bytes, seat)[STATE_AT] = State::Staying as u8;
    tell(bytes, seat, contact);
    Ok(())
}

/// Frees the seat of a reserved lot. Refusals: 1, 2, 3, 14.
pub fn give_back(bytes: &mut [u8], seat: u8) -> Result<(), Refusal> {
    let Sound { record, .. } = sound::test(bytes)?;
    must_be_seat(seat)?;
    must_be_reserved(record, seat)?;
    *entry_mut(of_size(bytes)?, seat) = FREE;
    Ok(())
}

/// In a free entry, whose links stay none.
fn write(bytes: &mut Bytes, seat: u8, state: State, number: u64, vector: u8) {
    let entry = entry_mut(bytes, seat);
    entry[STATE_AT] = state as u8;
    entry[NUMBER_AT..VECTOR_AT].copy_from_slice(&number.to_be_bytes());
    entry[VECTOR_AT] = vector;
}

fn tell(bytes: &mut Bytes, seat: u8, contact: u8) {
    if contact != NO_CONTACT {
        send(bytes, Message::meet(contact, seat, 0));
    }
}

fn may_reserve(record: Record, seat: u8, number: u64) -> Result<(), Refusal> {
    must_be_seat(seat)?;
    must_be_open(record)?;
    if !record.is_free(seat) {
        return Err(Refusal::SeatTaken);
    }
    let has_it = |entry: &Entry| entry[STATE_AT] != 0 && number_of(entry) == number;
    match record.entries().iter().any(has_it) {
        true => Err(Refusal::NumberInUse),
        false => Ok(()),
    }
}

fn must_be_contact(contact: u8) -> Result<(), Refusal> {
    match contact {
        NO_CONTACT => Ok(()),
        seat => must_be_seat(seat),
    }
}

fn must_have_contact(sound: &Sound, contact: u8) -> Result<(), Refusal> {
    let is_right = match contact {
        NO_CONTACT => sound.seated == 0,
        seat => sound.record.is_seated(seat),
    };
    match is_right {
        true => Ok(()),
        false => Err(Refusal::NoContact),
    }
}

fn must_be_reserved(record: Record, seat: u8) -> Result<(), Refusal> {
    match record.is_reserved(seat) {
        true => Ok(()),
        false => Err(Refusal::NotReserved),
    }
}
