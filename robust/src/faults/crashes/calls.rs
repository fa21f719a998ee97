//! What a crash sends, frees and refuses.

use super::*;
use crate::judge::Difference;
use compare::call::NO_VALUES;
use std::ops::Range;

/// A library whose crashes do not send what is told.
macro_rules! unsent {
    ($($name:ident: $sends:expr;)*) => {
        wrong_on_bytes! {
            $($name shows Difference::Byte { at: PENDING_AT.., .. } => |before, after, call, answer| {
                if let Some(seats) = crashed(call, answer) {
                    let sends: fn(&[u8], u64, Link) -> Vec<Message> = $sends;
                    resend(after, |link| above_level_0(link, |link| sends(before, seats, link)));
                }
                answer
            };)*
        }
    };
}

unsent! {
    level_1_forgotten: |_, _, link| all_but(1, link);
    level_2_forgotten: |_, _, link| all_but(2, link);
    level_3_forgotten: |_, _, link| all_but(3, link);
    level_4_forgotten: |_, _, link| all_but(4, link);
    level_5_forgotten: |_, _, link| all_but(5, link);
    level_6_forgotten: |_, _, link| all_but(6, link);
    level_7_forgotten: |_, _, link| all_but(7, link);
    level_8_forgotten: |_, _, link| all_but(8, link);
    left_end_forgotten: |before, _, link| to_one_end(before, link, |to, about| to > about);
    right_end_forgotten: |before, _, link| to_one_end(before, link, |to, about| to < about);
    // Only a link of one end shows these two.
    other_end_forgotten: |_, _, link| vec![link.to_holder()];
    holder_forgotten: |_, _, link| vec![link.to_other()];
    untouched_components_forgotten: |before, seats, link| {
        match components::of(before, link.holder) & seats {
            0 => Vec::new(),
            _ => link.both(),
        }
    };
    neighbours_of_the_named_alone: |before, seats, link| {
        let mut named = links(before).into_iter().filter(|other| other.holder == link.holder);
        match named.any(|other| is_in(seats, other.other)) {
            true => link.both(),
            false => Vec::new(),
        }
    };
    sent_at_its_level: |_, _, link| {
        let level = link.level as u8;
        vec![Message::meet(link.holder, link.other, level), Message::meet(link.other, link.holder, level)]
    };
}

fn all_but(level: usize, link: Link) -> Vec<Message> {
    match link.level == level {
        true => Vec::new(),
        false => link.both(),
    }
}

/// By the numbers of who is told and who it is told of.
fn to_one_end(before: &[u8], link: Link, is_told: fn(u64, u64) -> bool) -> Vec<Message> {
    let number = |seat| number(before, seat);
    let both = link.both().into_iter();
    both.filter(|message| is_told(number(message.to), number(message.about)))
        .collect()
}

// What is sent, freed and left.
wrong_on_bytes! {
    level_0_sends shows Difference::Byte { at: PENDING_AT.., .. } => |_, after, call, answer| {
        if crashed(call, answer).is_some() {
            resend(after, Link::both);
        }
        answer
    };
    nobody_sends shows Difference::Byte { at: PENDING_AT.., rust: 0, .. } => |_, after, call, answer| {
        if call == (Call::Crash { seats: 0 }) && answer.refusal == 0 {
            resend(after, |link| above_level_0(link, Link::both));
        }
        answer
    };
    a_link_at_level_0_is_left shows Difference::Byte { at: ENTRIES_AT..PENDING_AT, rust: NO_LINK, .. } =>
        |before, after, call, answer| links_left(before, after, call, answer, 0);
    a_link_at_level_8_is_left shows Difference::Byte { at: ENTRIES_AT..PENDING_AT, rust: NO_LINK, .. } =>
        |before, after, call, answer| links_left(before, after, call, answer, 8);
    only_links_that_answer_are_taken_away shows
        Difference::Byte { at: ENTRIES_AT..PENDING_AT, rust: NO_LINK, .. } =>
        |before, after, call, answer| {
            let Some(seats) = crashed(call, answer) else {
                return answer;
            };
            for link in links(before) {
                let to_named = is_in(seats, link.other) && !is_in(seats, link.holder);
                if to_named && !answers(before, link) {
                    put_back(before, after, link);
                }
            }
            answer
        };
    the_number_is_left shows Difference::Byte { at: ENTRIES_AT..PENDING_AT, rust: 0, .. } =>
        |before, after, call, answer| entries_left(before, after, call, answer, NUMBER_AT..VECTOR_AT);
    the_state_is_left shows Difference::Byte { at: ENTRIES_AT..PENDING_AT, rust: FREE, .. } =>
        |before, after, call, answer| entries_left(before, after, call, answer, STATE_AT..NUMBER_AT);
    the_links_of_the_named_are_left shows
        Difference::Byte { at: ENTRIES_AT..PENDING_AT, rust: NO_LINK, .. } =>
        |before, after, call, answer| entries_left(before, after, call, answer, LINKS_AT..ENTRY);
    seat_63_is_left shows Difference::Byte { at: ENTRIES_AT..PENDING_AT, rust: FREE, .. } =>
        |before, after, call, answer| {
            if crashed(call, answer).is_some_and(|seats| is_in(seats, 63)) {
                after[at(63)..PENDING_AT].copy_from_slice(&before[at(63)..PENDING_AT]);
            }
            answer
        };
    seats_from_the_highest_bit shows Difference::Answer { .. } => |before, after, call, _| match call {
        Call::Crash { seats } => {
            after.copy_from_slice(before);
            Call::Crash { seats: seats.reverse_bits() }.on_bytes(after)
        }
        _ => {
            after.copy_from_slice(before);
            call.on_bytes(after)
        }
    };
    reservations_are_freed shows Difference::Byte { rust: RESERVED, library: FREE, .. } =>
        |before, after, call, answer| {
            if crashed(call, answer).is_some() {
                for seat in seats_in(before, RESERVED) {
                    freed(&mut after[at(seat)..at(seat) + ENTRY]);
                }
            }
            answer
        };
}

// Refusals.
wrong_on_bytes! {
    a_crash_in_clearing shows Difference::Answer { .. } => |_, after, call, answer| {
        instead(after, call, answer, 7, |record| {
            record[PHASE_AT] = 0;
            record[PENDING_AT..].fill(0);
        })
    };
    what_is_pending_is_taken_away shows Difference::Answer { .. } => |_, after, call, answer| {
        instead(after, call, answer, 11, |record| record[PENDING_AT..].fill(0))
    };
    nobody_meets_nothing shows Difference::Answer { .. } => |_, _, call, answer| match call {
        Call::Crash { seats: 0 } => Answer::accepted(NO_VALUES),
        _ => answer,
    };
    free_seats_are_passed_over shows Difference::Answer { .. } => |before, after, call, answer| {
        match (call, answer.refusal) {
            (Call::Crash { seats }, 8) => lent_crash(after, seats & seated(before)),
            _ => answer,
        }
    };
    a_leaver_is_an_empty_seat shows Difference::Answer { .. } => |before, after, call, answer| {
        match crashed(call, answer) {
            Some(seats) if seats_in(before, LEAVING).any(|seat| is_in(seats, seat)) => {
                after.copy_from_slice(before);
                Answer::refused(8)
            }
            _ => answer,
        }
    };
    empty_seat_before_clearing shows Difference::Answer { .. } => |before, _, call, answer| {
        match (call, answer.refusal) {
            (Call::Crash { seats }, 7) if seats & !seated(before) != 0 => Answer::refused(8),
            _ => answer,
        }
    };
    messages_left_before_empty_seat shows Difference::Answer { .. } => |before, _, call, answer| {
        match (call, answer.refusal) {
            (Call::Crash { .. }, 8) if before[PENDING_AT..].iter().any(|&byte| byte != 0) => {
                Answer::refused(11)
            }
            _ => answer,
        }
    };
}

/// The links at a level to the named seats stay.
fn links_left(before: &[u8], after: &mut [u8], call: Call, answer: Answer, level: usize) -> Answer {
    if let Some(seats) = crashed(call, answer) {
        let at_level = links(before).into_iter().filter(|link| link.level == level);
        for link in at_level.filter(|link| !is_in(seats, link.holder)) {
            put_back(before, after, link);
        }
    }
    answer
}

/// Writes a link again as it was.
fn put_back(before: &[u8], after: &mut [u8], link: Link) {
    for side in SIDES {
        let at = at(link.holder) + link_at(link.level, side as usize);
        if before[at] == link.other {
            after[at] = link.other;
        }
    }
}

/// Whether the other end has the link too.
fn answers(before: &[u8], link: Link) -> bool {
    let mut back = links(before).into_iter();
    back.any(|back| {
        (back.holder, back.other) == (link.other, link.holder) && back.level == link.level
    })
}

/// Some of the bytes of the named entries stay.
fn entries_left(
    before: &[u8],
    after: &mut [u8],
    call: Call,
    answer: Answer,
    which: Range<usize>,
) -> Answer {
    let seats = crashed(call, answer).unwrap_or(0);
    for seat in (0..SEATS as u8).filter(|&seat| is_in(seats, seat)) {
        let which = at(seat) + which.start..at(seat) + which.end;
        after[which.clone()].copy_from_slice(&before[which]);
    }
    answer
}

/// The crash of a record that is changed first, where it should meet a refusal.
fn instead(
    after: &mut [u8],
    call: Call,
    answer: Answer,
    refusal: u8,
    change: impl Fn(&mut [u8]),
) -> Answer {
    match call {
        Call::Crash { seats } if answer.refusal == refusal => {
            change(after);
            lent_crash(after, seats)
        }
        _ => answer,
    }
}

fn lent_crash(record: &mut [u8], seats: u64) -> Answer {
    match lent::crash(record, seats) {
        Ok(()) => Answer::accepted(NO_VALUES),
        Err(refusal) => Answer::refused(refusal.number()),
    }
}
