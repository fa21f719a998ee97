//! Lots that went without leaving.

use super::layout::*;
use super::record::{send_at, Record};
use super::sound::{self, seats, Sound};
use super::{free, must_be_open, of_size};
use crate::graph::LEVELS;
use crate::model::Refusal;

/// Frees the seats of a set, bit 0 the lowest for seat 0, and lets the ends of each
/// link above level 0 that is left meet at level 0. The set 0 changes nothing.
/// Refusals: 1, 2, 7, 8, 11.
pub fn crash(bytes: &mut [u8], gone: u64) -> Result<(), Refusal> {
    let Sound {
        record,
        seated,
        pending,
        ..
    } = sound::test(bytes)?;
    must_be_open(record)?;
    if gone & !seated != 0 {
        return Err(Refusal::EmptySeat);
    }
    if pending != 0 {
        return Err(Refusal::MessagesLeft);
    }
    if gone != 0 {
        let bytes = of_size(bytes)?;
        free(bytes, gone);
        seats(seated & !gone).for_each(|lot| send_to_ends(bytes, lot));
    }
    Ok(())
}

/// Of each link of a lot above level 0, to each end about the other.
fn send_to_ends(bytes: &mut Bytes, lot: u8) {
    let entry = *Record(bytes).entry(lot);
    let lot = usize::from(lot);
    for &link in &entry[link_at(1, 0)..] {
        if link != NO_LINK {
            let link = usize::from(link);
            send_at(bytes, meet_at_level_0(lot, link));
            send_at(bytes, meet_at_level_0(link, lot));
        }
    }
}

#[inline]
fn meet_at_level_0(to: usize, about: usize) -> usize {
    MEET + pair_place(to, about, 0, LEVELS)
}
