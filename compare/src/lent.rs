//! The calls of documents 01 and 02 on lent bytes, laid out as docs/RECORD.md
//! says.
//!
//! Written from these documents, for speed and with every test of the table:
//! a second witness of each byte, and what the library's time is measured
//! against. Nothing is allocated.
//!
//! Each call answers `Err` with the first row of the table that applies, and
//! then changes no byte. Rows 1 and 2 come first in every call.

mod bundle;
mod bytes;
mod check;
mod crash;
mod joining;
mod layout;
mod merge;
mod next;
mod pending;
mod record;
mod sound;

use crate::graph::{Side, LEVELS, SEATS};
use crate::model::{Message, Phase, Refusal, State};
use crate::rules::{Entries, Rules};
use crate::search::{Found, Search};
use bundle::Bundle;
use layout::*;
use pending::{Index, Pending};
use record::{entries_mut, entry_mut, number_of, parts_mut, send, take_away, Record};
use sound::{seats, Sound};

pub use bytes::{from_bytes, messages, to_bytes};
pub use crash::crash;
pub use joining::{confirm, give_back, join, reserve};
pub use layout::{message_at, place_of, SIZE};
pub use merge::merge;

/// Places of the fields, for those who make records that are no call's.
pub mod place {
    pub use super::layout::{
        link_at, ENTRIES_AT, ENTRY, GOING, LINKS_AT, NO_LINK, NUMBER_AT, PENDING, PENDING_AT,
        PHASE_AT, PLACES, PROBE, STATE_AT, VECTOR_AT,
    };
}

/// A lot as it is read.
#[derive(Clone, Copy, PartialEq, Eq, Debug)]
pub struct LotRead {
    pub state: u8,
    pub number: u64,
    pub vector: u8,
}

/// The counts as they are read.
#[derive(Clone, Copy, PartialEq, Eq, Debug)]
pub struct CountsRead {
    pub lots: u8,
    pub phase: Phase,
    pub pending: u32,
}

/// Writes an empty record over any bytes. Refusals: 1.
pub fn open(bytes: &mut [u8]) -> Result<(), Refusal> {
    let bytes: &mut Bytes = bytes.try_into().map_err(|_| Refusal::WrongSize)?;
    bytes.fill(0);
    entries_mut(bytes).fill(FREE);
    Ok(())
}

/// Marks a staying lot as leaving. Refusals: 1, 2, 3, 7, 8, 9.
pub fn leave(bytes: &mut [u8], seat: u8) -> Result<(), Refusal> {
    let Sound { record, .. } = sound::test(bytes)?;
    must_be_seat(seat)?;
    must_be_open(record)?;
    must_be_seated(record, seat)?;
    if record.is_leaving(seat) {
        return Err(Refusal::AlreadyLeaving);
    }
    entry_mut(of_size(bytes)?, seat)[STATE_AT] = State::Leaving as u8;
    Ok(())
}

/// Takes a pending message away and does its rule. Refusals: 1, 2, 10.
pub fn deliver(bytes: &mut [u8], message: Message) -> Result<(), Refusal> {
    let Sound { record, .. } = sound::test(bytes)?;
    let place = place_of(message).filter(|&place| record.is_pending(place));
    let place = place.ok_or(Refusal::NoSuchMessage)?;
    let effect = record.effect(message);
    let bytes = of_size(bytes)?;
    take_away(bytes, place);
    if let Some((side, link)) = effect.set {
        let link = link.unwrap_or(NO_LINK);
        entry_mut(bytes, message.to)[link_at(message.level.into(), side as usize)] = link;
    }
    for message in effect.sends {
        send(bytes, message);
    }
    Ok(())
}

/// Delivers the smallest pending message, by its five numbers in order, again
/// and again until none is pending or the limit is reached; the count.
/// Refusals: 1, 2.
pub fn bundle(bytes: &mut [u8], limit: u16) -> Result<u16, Refusal> {
    let mut index = Index::new();
    sound::test_and_see(bytes, &mut |word| index.note(word))?;
    let (entries, bits) = parts_mut(of_size(bytes)?);
    let pending = Pending::new(bits, index);
    Ok(Bundle { entries, pending }.deliver(limit))
}

/// Goes from open with leavers to clearing, and from clearing to open.
/// Refusals: 1, 2, 11.
pub fn turn(bytes: &mut [u8]) -> Result<(), Refusal> {
    let Sound {
        record,
        leaving,
        pending,
        ..
    } = sound::test(bytes)?;
    if pending != 0 {
        return Err(Refusal::MessagesLeft);
    }
    let clearing = record.is_clearing();
    let bytes = of_size(bytes)?;
    if clearing {
        end_clearing(bytes, leaving);
    } else if leaving != 0 {
        begin_clearing(bytes, leaving);
    }
    Ok(())
}

fn begin_clearing(bytes: &mut Bytes, leaving: u64) {
    bytes[PHASE_AT] = Phase::Clearing as u8;
    for leaver in seats(leaving) {
        let entry = *Record(bytes).entry(leaver);
        for level in 0..LEVELS {
            for side in [Side::Left, Side::Right] {
                let to = entry[link_at(level, side as usize)];
                if to != NO_LINK {
                    send(bytes, Message::going(to, level as u8, side.away()));
                }
            }
        }
    }
}

fn end_clearing(bytes: &mut Bytes, leaving: u64) {
    bytes[PHASE_AT] = Phase::Open as u8;
    free(bytes, leaving);
}

/// Frees the seats of a set, and takes away the links to them.
fn free(bytes: &mut Bytes, gone: u64) {
    for (seat, entry) in entries_mut(bytes).iter_mut().enumerate() {
        if gone >> seat & 1 == 1 {
            *entry = FREE;
            continue;
        }
        for link in &mut entry[LINKS_AT..] {
            let freed = is_seat(*link) && gone >> (*link % 64) & 1 == 1;
            *link = if freed { NO_LINK } else { *link };
        }
    }
}

/// The search of document 000 from level 8, past lots that are leaving, on a
/// settled record. Refusals: 1, 2, 3, 8, 13.
pub fn find(bytes: &[u8], start: u8, scanned: u64) -> Result<Found, Refusal> {
    let sound = sound::test(bytes)?;
    must_be_seat(start)?;
    must_be_seated(sound.record, start)?;
    must_be_settled(&sound)?;
    Ok(sound.record.search(start, scanned))
}

/// Whether every component of the members is a skip graph, by Constraints 1 to 6.
/// Refusals: 1, 2.
pub fn check(bytes: &[u8]) -> Result<bool, Refusal> {
    let sound = sound::test(bytes)?;
    let mut members = sound.seated;
    if sound.record.is_clearing() {
        members &= !sound.leaving;
    }
    Ok(check::are_graphs(sound.record, members))
}

/// Reads a lot, a reserved one too. Refusals: 1, 2, 3, 8.
pub fn read_lot(bytes: &[u8], seat: u8) -> Result<LotRead, Refusal> {
    let Sound { record, .. } = sound::test(bytes)?;
    must_be_seat(seat)?;
    if record.is_free(seat) {
        return Err(Refusal::EmptySeat);
    }
    let entry = record.entry(seat);
    Ok(LotRead {
        state: entry[STATE_AT],
        number: number_of(entry),
        vector: entry[VECTOR_AT],
    })
}

/// Reads a link: a seat, or 255. Refusals: 1, 2, 3, 12, 8.
pub fn read_link(bytes: &[u8], seat: u8, level: u8, side: u8) -> Result<u8, Refusal> {
    let Sound { record, .. } = sound::test(bytes)?;
    must_be_seat(seat)?;
    if usize::from(level) >= LEVELS || side > 1 {
        return Err(Refusal::NoSuchLevel);
    }
    must_be_seated(record, seat)?;
    Ok(record.entry(seat)[link_at(level.into(), side.into())])
}

/// Whether five numbers are a pending message. Refusals: 1, 2.
pub fn read_message(bytes: &[u8], message: Message) -> Result<bool, Refusal> {
    let Sound { record, .. } = sound::test(bytes)?;
    Ok(place_of(message).is_some_and(|place| record.is_pending(place)))
}

/// The count of seated lots, the phase and the pending count. Refusals: 1, 2.
pub fn read_counts(bytes: &[u8]) -> Result<CountsRead, Refusal> {
    let sound = sound::test(bytes)?;
    Ok(CountsRead {
        lots: sound.seated.count_ones() as u8,
        phase: match sound.record.is_clearing() {
            true => Phase::Clearing,
            false => Phase::Open,
        },
        pending: sound.pending,
    })
}

/// The smallest pending message, by its five numbers in order, that is not
/// below five given numbers. Refusals: 1, 2.
pub fn next_message(bytes: &[u8], from: Message) -> Result<Option<Message>, Refusal> {
    let Sound { record, .. } = sound::test(bytes)?;
    Ok(next::next_pending(record.0, from))
}

/// The test in front of every call but open. Refusals: 1, 2.
pub fn validate(bytes: &[u8]) -> Result<(), Refusal> {
    sound::test(bytes).map(|_| ())
}

fn of_size(bytes: &mut [u8]) -> Result<&mut Bytes, Refusal> {
    bytes.try_into().map_err(|_| Refusal::WrongSize)
}

fn is_seat(seat: u8) -> bool {
    usize::from(seat) < SEATS
}

fn must_be_seat(seat: u8) -> Result<(), Refusal> {
    match is_seat(seat) {
        true => Ok(()),
        false => Err(Refusal::NoSuchSeat),
    }
}

fn must_be_open(record: Record) -> Result<(), Refusal> {
    match record.is_clearing() {
        false => Ok(()),
        true => Err(Refusal::InClearing),
    }
}

/// A seat with a reserved lot counts as empty.
fn must_be_seated(record: Record, seat: u8) -> Result<(), Refusal> {
    match record.is_seated(seat) {
        true => Ok(()),
        false => Err(Refusal::EmptySeat),
    }
}

/// The soundness test has counted what is pending; in phase open all lots are
/// members.
fn must_be_settled(sound: &Sound) -> Result<(), Refusal> {
    let record = sound.record;
    let at_rest = sound.pending == 0 && !record.is_clearing();
    match at_rest && check::are_graphs(record, sound.seated) {
        true => Ok(()),
        false => Err(Refusal::Unsettled),
    }
}
