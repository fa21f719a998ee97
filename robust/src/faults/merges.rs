//! Merges that send, change or refuse otherwise.

use super::crashes::components;
use super::on_bytes::*;
use crate::judge::Difference;
use compare::call::NO_VALUES;

/// The seats of an accepted merge.
fn merged(call: Call, answer: Answer) -> Option<(u8, u8)> {
    match call {
        Call::Merge { first, second } if answer.refusal == 0 => Some((first, second)),
        _ => None,
    }
}

/// Sends other messages in place of the one of an accepted merge, beside what was
/// pending.
fn send_instead(
    before: &[u8],
    after: &mut [u8],
    call: Call,
    answer: Answer,
    sends: impl Fn(u8, u8) -> Vec<Message>,
) -> Answer {
    if let Some((first, second)) = merged(call, answer) {
        after.copy_from_slice(before);
        for message in sends(first, second) {
            set(after, message);
        }
    }
    answer
}

/// A library whose merges send what is told of the two seats.
macro_rules! sent {
    ($($name:ident: $sends:expr;)*) => {
        wrong_on_bytes! {
            $($name shows Difference::Byte { at: PENDING_AT.., .. } => |before, after, call, answer| {
                let sends: fn(&[u8], u8, u8) -> Vec<Message> = $sends;
                send_instead(before, after, call, answer, |first, second| sends(before, first, second))
            };)*
        }
    };
}

sent! {
    nobody_is_told: |_, _, _| vec![];
    the_second_is_told: |_, first, second| vec![Message::meet(second, first, 0)];
    both_are_told: |_, first, second| vec![Message::meet(first, second, 0), Message::meet(second, first, 0)];
    it_is_sent_at_level_1: |_, first, second| vec![Message::meet(first, second, 1)];
    it_is_sent_at_all_levels: |_, first, second| (0..9).map(|level| Message::meet(first, second, level)).collect();
    a_probe_is_sent: |_, first, second| vec![Message::probe(first, second, 0)];
    the_smaller_number_is_told: |before, first, second| {
        match number(before, first) < number(before, second) {
            true => vec![Message::meet(first, second, 0)],
            false => vec![Message::meet(second, first, 0)],
        }
    };
    a_linked_lot_is_not_told: |before, first, second| {
        let level_0 = &before[at(first) + link_at(0, 0)..][..2];
        match level_0.contains(&second) {
            true => vec![],
            false => vec![Message::meet(first, second, 0)],
        }
    };
    a_lot_of_the_same_component_is_not_told: |before, first, second| {
        match is_in(components::of(before, first), second) {
            true => vec![],
            false => vec![Message::meet(first, second, 0)],
        }
    };
}

// What was pending, and entries.
wrong_on_bytes! {
    others_are_taken_away shows Difference::Byte { at: PENDING_AT.., library: 0, .. } => |_, after, call, answer| {
        if let Some((first, second)) = merged(call, answer) {
            after[PENDING_AT..].fill(0);
            set(after, Message::meet(first, second, 0));
        }
        answer
    };
    the_same_again_takes_it_away shows Difference::Byte { at: PENDING_AT.., .. } => |before, after, call, answer| {
        match merged(call, answer) {
            Some((first, second)) if before == after => {
                take_away(after, Message::meet(first, second, 0));
            }
            _ => {}
        }
        answer
    };
    the_link_is_set_at_once shows Difference::Byte { at: ENTRIES_AT..PENDING_AT, .. } => |before, after, call, answer| {
        if let Some((first, second)) = merged(call, answer) {
            let side = usize::from(number(before, first) < number(before, second));
            after[at(first) + link_at(0, side)] = second;
        }
        answer
    };
    a_leaver_stays_again shows Difference::Byte { rust: LEAVING, library: STAYING, .. } =>
        |_, after, call, answer| {
            if let Some((first, _)) = merged(call, answer) {
                after[at(first) + STATE_AT] = STAYING;
            }
            answer
        };
}

// Refusals.
wrong_on_bytes! {
    refused_within_a_component shows Difference::Answer { .. } => |before, after, call, answer| {
        refused_if(before, after, call, answer, 15, |first, second| {
            is_in(components::of(before, first), second)
        })
    };
    refused_while_messages_are_pending shows Difference::Answer { .. } => |before, after, call, answer| {
        refused_if(before, after, call, answer, 11, |_, _| before[PENDING_AT..].iter().any(|&byte| byte != 0))
    };
    a_first_that_leaves_is_an_empty_seat shows Difference::Answer { .. } => |before, after, call, answer| {
        refused_if(before, after, call, answer, 8, |first, _| state(before, first) == LEAVING)
    };
    a_second_that_leaves_is_an_empty_seat shows Difference::Answer { .. } => |before, after, call, answer| {
        refused_if(before, after, call, answer, 8, |_, second| state(before, second) == LEAVING)
    };
    seat_63_is_none shows Difference::Answer { .. } => |before, after, call, answer| {
        refused_if(before, after, call, answer, 3, |first, second| [first, second].contains(&63))
    };
    a_merge_in_clearing shows Difference::Answer { .. } => |_, _, call, answer| {
        accepted_if(call, answer, 7, |_, _| true)
    };
    a_reserved_seat_is_told shows Difference::Answer { .. } => |before, _, call, answer| {
        accepted_if(call, answer, 8, |first, _| state(before, first) == RESERVED)
    };
    a_reserved_seat_is_told_of shows Difference::Answer { .. } => |before, _, call, answer| {
        accepted_if(call, answer, 8, |first, second| {
            is_seated(before, first) && state(before, second) == RESERVED
        })
    };
    a_free_seat_is_told_of shows Difference::Answer { .. } => |before, _, call, answer| {
        accepted_if(call, answer, 8, |first, second| {
            is_seated(before, first) && state(before, second) == FREE
        })
    };
    the_same_lot_is_told_of_itself shows Difference::Answer { .. } => |_, _, call, answer| {
        accepted_if(call, answer, 15, |_, _| true)
    };
    same_lot_before_empty_seat shows Difference::Answer { .. } => |_, _, call, answer| {
        other_row_if(call, answer, (8, 15), |first, second| first == second)
    };
    same_lot_before_clearing shows Difference::Answer { .. } => |_, _, call, answer| {
        other_row_if(call, answer, (7, 15), |first, second| first == second)
    };
    same_lot_before_no_such_seat shows Difference::Answer { .. } => |_, _, call, answer| {
        other_row_if(call, answer, (3, 15), |first, second| first == second)
    };
    empty_seat_before_clearing shows Difference::Answer { .. } => |before, _, call, answer| {
        other_row_if(call, answer, (7, 8), |first, second| {
            !is_seated(before, first) || !is_seated(before, second)
        })
    };
    clearing_before_no_such_seat shows Difference::Answer { .. } => |before, _, call, answer| {
        other_row_if(call, answer, (3, 7), |_, _| before[PHASE_AT] == 1)
    };
    no_such_second_seat_is_empty shows Difference::Answer { .. } => |_, _, call, answer| {
        other_row_if(call, answer, (3, 8), |first, _| usize::from(first) < SEATS)
    };
}

/// An accepted merge refused where it is told so.
fn refused_if(
    before: &[u8],
    after: &mut [u8],
    call: Call,
    answer: Answer,
    refusal: u8,
    applies: impl Fn(u8, u8) -> bool,
) -> Answer {
    match merged(call, answer) {
        Some((first, second)) if applies(first, second) => {
            after.copy_from_slice(before);
            Answer::refused(refusal)
        }
        _ => answer,
    }
}

/// A merge accepted where it should meet a refusal; it does nothing.
fn accepted_if(
    call: Call,
    answer: Answer,
    refusal: u8,
    applies: impl Fn(u8, u8) -> bool,
) -> Answer {
    match call {
        Call::Merge { first, second } if answer.refusal == refusal && applies(first, second) => {
            Answer::accepted(NO_VALUES)
        }
        _ => answer,
    }
}

/// A merge that meets another row than it should.
fn other_row_if(
    call: Call,
    answer: Answer,
    (right, wrong): (u8, u8),
    applies: impl Fn(u8, u8) -> bool,
) -> Answer {
    match accepted_if(call, answer, right, applies) == answer {
        true => answer,
        false => Answer::refused(wrong),
    }
}
