//! Reserved lots that are taken for seated ones, or their seats for free ones.

use crate::faults::on_bytes::*;
use crate::judge::Difference;

wrong_on_bytes! {
    counted shows Difference::Answer { .. } => |before, after, call, answer| match call {
        Call::ReadCounts => seated(before, after, call, |_| true),
        _ => answer,
    };
    a_search_starts_from_it shows Difference::Answer { .. } => |before, _, call, answer| {
        match (call, answer.refusal) {
            (Call::Find { seat, number: scanned }, 8) if state(before, seat) == RESERVED => {
                let holder = Some(seat).filter(|&seat| number(before, seat) <= scanned);
                Answer::accepted([holder.unwrap_or(NO_LINK).into(), 0, 0, 0, 0])
            }
            _ => answer,
        }
    };
    a_search_ends_at_it shows Difference::Answer { .. } => |before, _, call, answer| {
        match (call, answer.refusal) {
            (Call::Find { number: scanned, .. }, 0) => with_reserved_holder(before, scanned, answer),
            _ => answer,
        }
    };
    it_may_leave shows Difference::Answer { .. } => |before, after, call, answer| match call {
        Call::Leave { seat } => seated(before, after, call, |lot| lot == seat),
        _ => answer,
    };
    its_links_are_read shows Difference::Answer { .. } => |before, after, call, answer| {
        match call {
            Call::ReadLink { seat, .. } => seated(before, after, call, |lot| lot == seat),
            _ => answer,
        }
    };
    it_is_a_contact shows Difference::Answer { .. } => |before, after, call, answer| match call {
        Call::Join { seat, contact, .. } | Call::Confirm { seat, contact } => {
            seated(before, after, call, |lot| lot == contact && lot != seat)
        }
        _ => answer,
    };
    the_first_lot_beside_it_needs_a_contact shows Difference::Answer { .. } =>
        |before, after, call, answer| match call {
            Call::Join { seat, .. } | Call::Confirm { seat, .. } => {
                seated(before, after, call, |lot| lot != seat)
            }
            _ => answer,
        };
    its_seat_is_free shows Difference::Answer { .. } => |before, after, call, answer| match call {
        Call::Join { seat, .. } | Call::Reserve { seat, .. } => {
            away(before, after, call, |lot| lot == seat)
        }
        _ => answer,
    };
    its_number_is_free shows Difference::Answer { .. } => |before, after, call, answer| {
        match call {
            Call::Join { seat, .. } | Call::Reserve { seat, .. } => {
                away(before, after, call, |lot| lot != seat)
            }
            _ => answer,
        }
    };
    it_is_not_shown shows Difference::Answer { .. } => |before, after, call, answer| match call {
        Call::ReadLot { seat } => away(before, after, call, |lot| lot == seat),
        _ => answer,
    };
    it_makes_the_record_unsound shows Difference::Answer { .. } => |before, after, call, answer| {
        match seats_in(before, RESERVED).next() {
            Some(_) if call != Call::Open => {
                after.copy_from_slice(before);
                Answer::refused(2)
            }
            _ => answer,
        }
    };
}

/// Makes the call as if some of the reserved lots were staying.
fn seated(before: &[u8], after: &mut [u8], call: Call, which: impl Fn(u8) -> bool) -> Answer {
    as_if(before, after, call, which, |entry| {
        entry[STATE_AT] = STAYING
    })
}

/// Makes the call as if some of the reserved lots were not there.
fn away(before: &[u8], after: &mut [u8], call: Call, which: impl Fn(u8) -> bool) -> Answer {
    as_if(before, after, call, which, freed)
}

/// Those that the call leaves alone are as they were.
fn as_if(
    before: &[u8],
    after: &mut [u8],
    call: Call,
    which: impl Fn(u8) -> bool,
    disguise: fn(&mut [u8]),
) -> Answer {
    after.copy_from_slice(before);
    let seats = || seats_in(before, RESERVED).filter(|&seat| which(seat));
    let entry = |seat| at(seat)..at(seat) + ENTRY;
    seats().for_each(|seat| disguise(&mut after[entry(seat)]));
    let disguised = after.to_vec();
    let answer = call.on_bytes(after);
    for entry in seats().map(entry) {
        if after[entry.clone()] == disguised[entry.clone()] {
            after[entry.clone()].copy_from_slice(&before[entry]);
        }
    }
    answer
}

/// The reserved lot with the largest number not above the scanned one, if that is above
/// the holder's.
fn with_reserved_holder(before: &[u8], scanned: u64, mut answer: Answer) -> Answer {
    let number = |seat: &u8| number(before, *seat);
    let holder = Some(answer.values[0] as u8).filter(|&holder| holder != NO_LINK);
    let holder = holder.map(|holder| number(&holder));
    let between = |seat: &u8| Some(number(seat)) > holder && number(seat) <= scanned;
    let nearest = seats_in(before, RESERVED)
        .filter(between)
        .max_by_key(number);
    answer.values[0] = nearest.map_or(answer.values[0], u64::from);
    answer
}
