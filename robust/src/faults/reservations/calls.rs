//! Reservations, confirmations and returns that send, write, leave or refuse
//! otherwise; turns and joins that touch reservations.

use crate::faults::on_bytes::*;
use crate::judge::Difference;
use compare::call::NO_VALUES;
use compare::graph::Side;
use compare::model::NO_CONTACT;
use std::ops::Range;

// What is sent and written.
wrong_on_bytes! {
    a_reservation_sends shows Difference::Byte { at: PENDING_AT.., .. } =>
        |before, after, call, answer| {
            let first = seats_in(before, STAYING).next();
            if let (Call::Reserve { seat, .. }, 0, Some(first)) = (call, answer.refusal, first) {
                set(after, Message::meet(first, seat, 0));
            }
            answer
        };
    a_reservation_links shows Difference::Byte { at: ENTRIES_AT..PENDING_AT, rust: NO_LINK, .. } =>
        |before, after, call, answer| {
            let first = seats_in(before, STAYING).next();
            let accepted = answer.refusal == 0;
            if let (Call::Reserve { seat, number: new, .. }, true, Some(first)) = (call, accepted, first) {
                let side = Side::toward(new, number(before, first));
                after[at(seat) + link_at(0, side as usize)] = first;
            }
            answer
        };
    a_confirmation_sends_nothing shows Difference::Byte { at: PENDING_AT.., library: 0, .. } =>
        |before, after, call, answer| {
            if let Call::Confirm { .. } = call {
                after[PENDING_AT..].copy_from_slice(&before[PENDING_AT..]);
            }
            answer
        };
    a_confirmation_tells_the_newcomer shows Difference::Byte { at: PENDING_AT.., .. } =>
        |before, after, call, answer| {
            if let (Call::Confirm { seat, contact: contact @ 0..64 }, 0) = (call, answer.refusal) {
                after[PENDING_AT..].copy_from_slice(&before[PENDING_AT..]);
                set(after, Message::meet(seat, contact, 0));
            }
            answer
        };
    the_first_confirmation_sends shows Difference::Byte { at: PENDING_AT.., rust: 0, .. } =>
        |_, after, call, answer| {
            if let (Call::Confirm { seat, contact: NO_CONTACT }, 0) = (call, answer.refusal) {
                set(after, Message::meet(seat, seat, 0));
            }
            answer
        };
    its_own_seat_is_a_contact shows Difference::Answer { .. } => |_, after, call, answer| {
        match (call, answer.refusal) {
            (Call::Confirm { seat, contact }, 6) if seat == contact => {
                after[at(seat) + STATE_AT] = STAYING;
                set(after, Message::meet(seat, seat, 0));
                Answer::accepted(NO_VALUES)
            }
            _ => answer,
        }
    };
    a_confirmed_lot_stays_reserved shows Difference::Byte { rust: STAYING, library: RESERVED, .. } =>
        |_, after, call, answer| {
            if let (Call::Confirm { seat, .. }, 0) = (call, answer.refusal) {
                after[at(seat) + STATE_AT] = RESERVED;
            }
            answer
        };
}

// What a return leaves, and what others free.
wrong_on_bytes! {
    a_return_changes_nothing shows Difference::Byte { rust: FREE, library: RESERVED, .. } =>
        |before, after, call, answer| left(before, after, call, answer, 0..ENTRY);
    a_return_leaves_the_number shows Difference::Byte { rust: 0, .. } =>
        |before, after, call, answer| left(before, after, call, answer, NUMBER_AT..VECTOR_AT);
    a_return_leaves_the_vector shows Difference::Byte { rust: 0, .. } =>
        |before, after, call, answer| left(before, after, call, answer, VECTOR_AT..LINKS_AT);
    a_return_clears_the_links_too shows Difference::Byte { rust: NO_LINK, library: 0, .. } =>
        |_, after, call, answer| {
            if let (Call::GiveBack { seat }, 0) = (call, answer.refusal) {
                after[at(seat) + LINKS_AT..at(seat) + ENTRY].fill(0);
            }
            answer
        };
    a_turn_to_clearing_frees shows Difference::Byte { rust: RESERVED, library: FREE, .. } =>
        |before, after, call, answer| {
            if call == Call::Turn && before[PHASE_AT] < after[PHASE_AT] {
                free_reserved(before, after);
            }
            answer
        };
    a_turn_to_open_frees shows Difference::Byte { rust: RESERVED, library: FREE, .. } =>
        |before, after, call, answer| {
            if call == Call::Turn && before[PHASE_AT] > after[PHASE_AT] {
                free_reserved(before, after);
            }
            answer
        };
    a_refused_join_reserves shows Difference::Changed { .. } => |_, after, call, answer| {
        if let (Call::Join { seat, number, vector, .. }, 6) = (call, answer.refusal) {
            lent::reserve(after, seat, number, vector).expect("but for 6 it is accepted");
        }
        answer
    };
}

// Refusals.
wrong_on_bytes! {
    a_reservation_in_clearing shows Difference::Answer { .. } => |_, after, call, answer| {
        match (call, answer.refusal) {
            (Call::Reserve { .. }, 7) => in_phase_open(after, call),
            _ => answer,
        }
    };
    a_confirmation_in_clearing shows Difference::Answer { .. } => |_, after, call, answer| {
        match (call, answer.refusal) {
            (Call::Confirm { .. }, 7) => in_phase_open(after, call),
            _ => answer,
        }
    };
    a_return_waits_for_phase_open shows Difference::Answer { .. } => |before, after, call, answer| {
        match call {
            Call::GiveBack { .. } if before[PHASE_AT] == 1 => refused(before, after, 7),
            _ => answer,
        }
    };
    a_return_waits_for_messages shows Difference::Answer { .. } => |before, after, call, answer| {
        match (call, answer.refusal) {
            (Call::GiveBack { .. }, 0) if before[PENDING_AT..].iter().any(|&byte| byte != 0) => {
                refused(before, after, 11)
            }
            _ => answer,
        }
    };
    not_reserved_is_empty shows Difference::Answer { .. } => |_, _, _, answer| {
        match answer.refusal {
            14 => Answer::refused(8),
            _ => answer,
        }
    };
    not_reserved_before_clearing shows Difference::Answer { .. } => |before, _, call, answer| {
        match (call, answer.refusal) {
            (Call::Confirm { seat, .. }, 7) if state(before, seat) != RESERVED => Answer::refused(14),
            _ => answer,
        }
    };
    no_contact_before_not_reserved shows Difference::Answer { .. } => |before, _, call, answer| {
        match (call, answer.refusal) {
            (Call::Confirm { contact: contact @ 0..64, .. }, 14) if state(before, contact) == FREE => {
                Answer::refused(6)
            }
            _ => answer,
        }
    };
    seat_taken_before_clearing shows Difference::Answer { .. } => |before, _, call, answer| {
        match (call, answer.refusal) {
            (Call::Reserve { seat, .. }, 7) if state(before, seat) != FREE => Answer::refused(4),
            _ => answer,
        }
    };
    number_before_seat_taken shows Difference::Answer { .. } => |before, _, call, answer| {
        match (call, answer.refusal) {
            (Call::Reserve { number: new, .. }, 4)
                if (0..SEATS as u8).any(|seat| state(before, seat) != FREE && number(before, seat) == new) =>
            {
                Answer::refused(5)
            }
            _ => answer,
        }
    };
}

/// Some of the bytes of an entry that is given back stay.
fn left(
    before: &[u8],
    after: &mut [u8],
    call: Call,
    answer: Answer,
    which: Range<usize>,
) -> Answer {
    if let (Call::GiveBack { seat }, 0) = (call, answer.refusal) {
        let which = at(seat) + which.start..at(seat) + which.end;
        after[which.clone()].copy_from_slice(&before[which]);
    }
    answer
}

fn free_reserved(before: &[u8], after: &mut [u8]) {
    for seat in seats_in(before, RESERVED) {
        freed(&mut after[at(seat)..at(seat) + ENTRY]);
    }
}

/// The call as if the phase were open.
fn in_phase_open(record: &mut [u8], call: Call) -> Answer {
    let mut open = record.to_vec();
    open[PHASE_AT] = 0;
    open[PENDING_AT..].fill(0);
    let answer = call.on_bytes(&mut open);
    record[ENTRIES_AT..PENDING_AT].copy_from_slice(&open[ENTRIES_AT..PENDING_AT]);
    answer
}

fn refused(before: &[u8], after: &mut [u8], refusal: u8) -> Answer {
    after.copy_from_slice(before);
    Answer::refused(refusal)
}
