//! Calls that answer wrongly, change what they must not or send too little.

use super::{caught, put_right, right};
use crate::judge::Difference;
use crate::sys::{Make, Outcome};
use compare::call::{Answer, Call, Values, NO_VALUES};
use compare::graph::{LEVELS, SEATS};
use compare::lent::place::*;
use compare::lent::{message_at, SIZE};
use compare::model::Message;
use std::ops::Range;

fn assert_is_caught(name: &str, make: Make, expected: fn(Difference) -> bool) {
    let (difference, calls) = caught(make).expect("the fault is not caught");
    println!("{name}: {calls} calls");
    assert!(expected(difference), "{difference:?}");
}

/// A library that is right but for what is done after each call, given the
/// record before.
macro_rules! wrong {
    ($($name:ident shows $sort:pat => $fault:expr;)*) => {
        $(#[test]
        fn $name() {
            fn make(memory: &mut [u8], record: Range<usize>, call: Call, fill: u64) -> Outcome {
                let before = memory[record.clone()].to_vec();
                let outcome = right(memory, record.clone(), call, fill);
                let fault: Fault = $fault;
                fault(&before, memory, record, call, fill, outcome)
            }
            assert_is_caught(stringify!($name), make, |difference| matches!(difference, $sort));
        })*
    };
}

type Fault = fn(&[u8], &mut [u8], Range<usize>, Call, u64, Outcome) -> Outcome;

/// A library that does not send some of what it should, given the message that
/// was taken away and each that was sent.
macro_rules! unsent {
    ($($name:ident: $which:expr;)*) => {
        wrong! {
            $($name shows Difference::Byte { .. } => |before, memory, record, call, _, outcome| {
                drop_sent(before, &mut memory[record], call, $which);
                outcome
            };)*
        }
    };
}

unsent! {
    old_neighbour_dropped: |taken, sent| {
        sent.kind == 1 && sent.to == taken.about && sent.about != taken.to
    };
    no_pull: |taken, sent| taken.kind == 1 && sent.kind == 3;
    none_not_sent: |_, sent| sent.kind == 7;
    going_at_level_8_forgotten: |_, sent| sent.kind == 4 && sent.level == 8;
}

wrong! {
    refused_turn_changes_a_byte shows Difference::Changed { at: 0 } =>
        |_, memory, record, call, _, outcome| {
            if call == Call::Turn && outcome.answer.refusal == 11 {
                memory[record.start] ^= 1;
            }
            outcome
        };
    check_changes_a_byte shows Difference::Changed { .. } =>
        |_, memory, record, call, _, outcome| {
            if call == Call::Check && outcome.answer.values[0] == 0 && record.len() == SIZE {
                memory[record.end - 1] ^= 1;
            }
            outcome
        };
    byte_behind shows Difference::Outside { at: 20_257 } =>
        |_, memory, record, call, _, outcome| {
            if call == Call::Open && record.len() == SIZE {
                memory[record.end] ^= 1;
            }
            outcome
        };
    byte_in_front shows Difference::Outside { at: -1 } =>
        |_, memory, record, call, _, outcome| {
            if matches!(call, Call::Leave { seat: 0 }) && outcome.answer.refusal == 0 {
                memory[record.start - 1] ^= 1;
            }
            outcome
        };
    value_not_written_when_refused shows Difference::Answer { .. } =>
        |_, _, _, call, fill, mut outcome| {
            if matches!(call, Call::ReadLot { .. }) && outcome.answer.refusal == 8 {
                outcome.answer.values[1] = fill;
            }
            outcome
        };
    byte_beside_an_output shows Difference::BesideOutput =>
        |_, _, _, call, _, mut outcome| {
            outcome.beside = matches!(call, Call::Find { .. });
            outcome
        };
    seat_taken_before_clearing shows Difference::Answer { .. } =>
        |before, _, _, call, _, outcome| match call {
            Call::Join { seat, .. } if outcome.answer.refusal == 7 && state(before, seat) != 0 => {
                refused(4)
            }
            _ => outcome,
        };
    empty_seat_before_clearing shows Difference::Answer { .. } =>
        |before, _, _, call, _, outcome| match call {
            Call::Leave { seat } if outcome.answer.refusal == 7 && state(before, seat) == 0 => {
                refused(8)
            }
            _ => outcome,
        };
    empty_seat_before_level shows Difference::Answer { .. } =>
        |before, _, _, call, _, outcome| match call {
            Call::ReadLink { seat, .. }
                if outcome.answer.refusal == 12 && state(before, seat) == 0 =>
            {
                refused(8)
            }
            _ => outcome,
        };
    no_contact_before_number shows Difference::Answer { .. } =>
        |before, _, _, call, _, outcome| match call {
            Call::Join { contact, .. }
                if outcome.answer.refusal == 5
                    && (contact == 255 || state(before, contact) == 0) =>
            {
                refused(6)
            }
            _ => outcome,
        };
    step_to_no_holder_counted shows Difference::Answer { .. } =>
        |_, _, _, call, _, mut outcome| {
            if matches!(call, Call::Find { .. }) && outcome.answer.values[0] == 255 {
                outcome.answer.values[1] += 1;
            }
            outcome
        };
    check_does_not_look_at_level_8 shows Difference::Answer { .. } =>
        |before, _, _, call, _, mut outcome| {
            if call == Call::Check && outcome.answer == Answer::accepted(NO_VALUES) {
                let mut other = before.to_vec();
                put_right(&mut other, LEVELS - 1..LEVELS);
                outcome.answer = call.on_bytes(&mut other);
            }
            outcome
        };
    check_overlooks_leavers shows Difference::Answer { .. } =>
        |before, _, _, call, _, mut outcome| {
            if call == Call::Check && before.len() == SIZE && before[PHASE_AT] == 1 {
                let mut other = before.to_vec();
                other[PHASE_AT] = 0;
                other[PENDING_AT..].fill(0);
                if outcome.answer.refusal == 0 {
                    outcome.answer = call.on_bytes(&mut other);
                }
            }
            outcome
        };
    message_not_taken_away shows Difference::Byte { .. } =>
        |before, memory, record, call, _, outcome| {
            if matches!(call, Call::Deliver(m) if m.kind == 3) && outcome.answer.refusal == 0 {
                for (byte, before) in memory[record].iter_mut().zip(before).skip(PENDING_AT) {
                    *byte |= before;
                }
            }
            outcome
        };
    link_to_a_freed_seat_kept shows Difference::Byte { .. } =>
        |before, memory, record, call, _, outcome| {
            if call == Call::Turn && outcome.answer.refusal == 0 && before[PHASE_AT] == 1 {
                keep_links(before, &mut memory[record]);
            }
            outcome
        };
    next_after_in_place_of_at_or_after shows Difference::Answer { .. } =>
        |before, _, _, call, _, outcome| match call {
            Call::NextMessage(from) if outcome.answer == Answer::accepted(numbers(from)) => {
                next(before, Message { side: from.side + 1, ..from })
            }
            _ => outcome,
        };
    next_by_kind_and_to_alone shows Difference::Answer { .. } =>
        |before, _, _, call, _, outcome| match call {
            Call::NextMessage(from) if outcome.answer.refusal == 0 => {
                next(before, Message { about: 0, level: 0, side: 0, ..from })
            }
            _ => outcome,
        };
    next_cuts_a_number_that_no_message_has shows Difference::Answer { .. } =>
        |before, _, _, call, _, outcome| match call {
            Call::NextMessage(from) if outcome.answer.refusal == 0 => {
                next(before, Message { level: from.level.min(8), side: from.side.min(1), ..from })
            }
            _ => outcome,
        };
    next_value_not_written_where_there_is_none shows Difference::Answer { .. } =>
        |_, _, _, call, fill, mut outcome| {
            if matches!(call, Call::NextMessage(_)) && outcome.answer.values[0] == 0 {
                outcome.answer.values[4] = fill & 255;
            }
            outcome
        };
    bundle_of_nothing_refused shows Difference::Answer { .. } =>
        |_, _, _, call, _, outcome| match call {
            Call::Bundle { limit: 1.. } if outcome.answer == Answer::accepted(NO_VALUES) => {
                refused(10)
            }
            _ => outcome,
        };
    bundle_count_not_written_when_refused shows Difference::Answer { .. } =>
        |_, _, _, call, fill, mut outcome| {
            if matches!(call, Call::Bundle { .. }) && outcome.answer.refusal == 2 {
                outcome.answer.values[0] = fill & 0xFFFF;
            }
            outcome
        };
    pending_count_too_narrow shows Difference::Answer { .. } =>
        |_, _, _, call, _, mut outcome| {
            if call == Call::ReadCounts {
                outcome.answer.values[2] &= 63;
            }
            outcome
        };
}

fn numbers(m: Message) -> Values {
    [m.kind, m.to, m.about, m.level, m.side].map(u64::from)
}

/// What the call answers for other numbers than those given.
fn next(record: &[u8], from: Message) -> Outcome {
    Outcome {
        answer: Call::NextMessage(from).on_bytes(&mut record.to_vec()),
        beside: false,
    }
}

fn refused(number: u8) -> Outcome {
    Outcome {
        answer: Answer::refused(number),
        beside: false,
    }
}

fn state(bytes: &[u8], seat: u8) -> u8 {
    bytes[ENTRIES_AT + ENTRY * usize::from(seat) + STATE_AT]
}

/// Takes back messages that an accepted call has sent: `(taken, sent)`.
fn drop_sent(before: &[u8], after: &mut [u8], call: Call, dropped: fn(Message, Message) -> bool) {
    let taken = match call {
        Call::Deliver(message) => message,
        Call::Turn => message_at(0),
        _ => return,
    };
    if before.len() != SIZE || before == after {
        return;
    }
    for place in 0..PLACES {
        let (at, bit) = (PENDING_AT + place / 8, 1 << (place % 8));
        let sent = after[at] & !before[at] & bit != 0;
        if sent && dropped(taken, message_at(place)) {
            after[at] &= !bit;
        }
    }
}

fn keep_links(before: &[u8], after: &mut [u8]) {
    for seat in (0..SEATS).filter(|&seat| state(before, seat as u8) == 1) {
        let at = ENTRIES_AT + ENTRY * seat;
        let links = at + LINKS_AT..at + ENTRY;
        after[links.clone()].copy_from_slice(&before[links]);
    }
}
