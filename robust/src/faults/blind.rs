//! Tests of soundness that do not look at something: each takes away what it
//! does not see from a copy and answers as for that.

use super::caught;
use crate::judge::Difference;
use crate::sys::{Make, Outcome};
use compare::call::{Answer, Call};
use compare::graph::{LEVELS, SEATS};
use compare::lent::place::*;
use compare::lent::{self, message_at};
use compare::model::{shared_bits, Message};
use compare::reserved::Unsound;
use compare::script::REMAINDERS;
use std::ops::Range;

type Forgive = fn(&mut [u8]);

fn blind(forgive: Forgive, record: &mut [u8], call: Call) -> Outcome {
    let mut forgiven = record.to_vec();
    let mut answer = call.on_bytes(record);
    if answer.refusal == 2 {
        forgive(&mut forgiven);
        answer = call.on_bytes(&mut forgiven);
    }
    let beside = false;
    Outcome { answer, beside }
}

macro_rules! blind_to {
    ($($name:ident: $forgive:expr;)*) => {
        $(#[test]
        fn $name() {
            fn make(memory: &mut [u8], record: Range<usize>, call: Call, _: u64) -> Outcome {
                blind($forgive, &mut memory[record], call)
            }
            assert_is_caught(stringify!($name), make);
        })*
    };
}

fn assert_is_caught(name: &str, make: Make) {
    let (difference, calls) = caught(make).expect("the fault is not caught");
    println!("{name}: {calls} calls");
    let Difference::Answer { rust, .. } = difference else {
        panic!("{difference:?}");
    };
    assert_eq!(rust, Answer::refused(2));
}

blind_to! {
    high_bits_of_the_phase: |bytes| bytes[PHASE_AT] &= 1;
    states_above_3: |bytes| entries(bytes, |entry| {
        if entry[STATE_AT] > 3 {
            entry[STATE_AT] = 2;
        }
    });
    numbers_of_free_seats: |bytes| free(bytes, |entry| entry[NUMBER_AT..VECTOR_AT].fill(0));
    vectors_of_free_seats: |bytes| free(bytes, |entry| entry[VECTOR_AT] = 0);
    links_of_free_seats: |bytes| free(bytes, |entry| entry[LINKS_AT..].fill(NO_LINK));
    equal_numbers: |bytes| raise_equal_numbers(bytes, |_, _| true);
    equal_numbers_but_of_the_last_lot_alike: |bytes| raise_equal_numbers(bytes, |bytes, seat| {
        let number = lot(bytes, seat).1;
        let alike = |&other: &u8| lot(bytes, other).0 != 0 && lot(bytes, other).1 % REMAINDERS == number % REMAINDERS;
        (0..seat).rev().find(alike).is_some_and(|last| lot(bytes, last).1 != number)
    });
    links_to_seats_above_63: |bytes| unlink(bytes, |_, _, _, link| link > 63);
    links_to_free_seats: |bytes| unlink(bytes, |bytes, _, _, link| {
        link < 64 && lot(bytes, link).0 == 0
    });
    links_to_itself: |bytes| unlink(bytes, |_, seat, _, link| link == seat);
    links_on_the_other_side: |bytes| unlink(bytes, |bytes, seat, place, link| {
        let right = place % 2 == 1;
        link < 64 && link != seat && (lot(bytes, seat).1 < lot(bytes, link).1) != right
    });
    links_that_share_too_little: |bytes| unlink(bytes, |bytes, seat, place, link| {
        link < 64 && share(bytes, seat, link) < place / 2
    });
    links_at_level_8_that_share_7_bits: |bytes| unlink(bytes, |bytes, seat, place, link| {
        link < 64 && place / 2 == 8 && share(bytes, seat, link) == 7
    });
    meet: |bytes| take(bytes, |_, m| m.kind == 1);
    probe: |bytes| take(bytes, |_, m| m.kind == 2);
    pull: |bytes| take(bytes, |_, m| m.kind == 3);
    going: |bytes| take(bytes, |_, m| m.kind == 4);
    seek: |bytes| take(bytes, |_, m| m.kind == 5);
    found: |bytes| take(bytes, |_, m| m.kind == 6);
    none: |bytes| take(bytes, |_, m| m.kind == 7);
    open_messages_while_clearing: |bytes| take(bytes, |bytes, m| bytes[0] == 1 && m.kind < 4);
    clearing_messages_while_open: |bytes| take(bytes, |bytes, m| bytes[0] == 0 && m.kind > 3);
    a_lot_that_meets_itself: |bytes| take(bytes, |_, m| m.kind == 1 && m.to == m.about);
    a_lot_that_probes_itself: |bytes| take(bytes, |_, m| m.kind == 2 && m.to == m.about);
    pull_to_a_free_seat: |bytes| take(bytes, |bytes, m| m.kind == 3 && lot(bytes, m.to).0 == 0);
    meet_about_a_free_seat: |bytes| take(bytes, |bytes, m| {
        m.kind == 1 && lot(bytes, m.about).0 == 0
    });
    meet_that_shares_too_little: |bytes| take(bytes, |bytes, m| {
        m.kind == 1 && share(bytes, m.to, m.about) < m.level.into()
    });
    probe_that_shares_too_little: |bytes| take(bytes, |bytes, m| {
        m.kind == 2 && share(bytes, m.to, m.about) < m.level.into()
    });
    seek_about_a_leaver: |bytes| take(bytes, |bytes, m| m.kind == 5 && lot(bytes, m.about).0 == 2);
    found_about_a_leaver: |bytes| take(bytes, |bytes, m| m.kind == 6 && lot(bytes, m.about).0 == 2);
    found_to_a_leaver: |bytes| take(bytes, |bytes, m| m.kind == 6 && lot(bytes, m.to).0 == 2);
    none_to_a_leaver: |bytes| take(bytes, |bytes, m| m.kind == 7 && lot(bytes, m.to).0 == 2);
    state_4: |bytes| put_right(bytes, Unsound::StateAbove);
    links_of_reserved_lots: |bytes| put_right(bytes, Unsound::HasLink);
    a_reserved_number_that_a_seated_lot_has: |bytes| put_right(bytes, Unsound::NumberOfSeated);
    a_reserved_number_twice: |bytes| put_right(bytes, Unsound::NumberOfReserved);
    links_to_reserved_lots: |bytes| put_right(bytes, Unsound::LinkTo);
    messages_to_reserved_lots: |bytes| put_right(bytes, Unsound::MessageTo);
    messages_about_reserved_lots: |bytes| put_right(bytes, Unsound::MessageAbout);
    the_last_byte: |bytes| bytes[lent::SIZE - 1] = 0;
    the_last_entry: |bytes| entry(bytes, SEATS - 1)[LINKS_AT..].fill(NO_LINK);
}

fn put_right(bytes: &mut [u8], way: Unsound) {
    way.put_right(bytes);
}

fn entry(bytes: &mut [u8], seat: usize) -> &mut [u8] {
    let at = ENTRIES_AT + ENTRY * seat;
    &mut bytes[at..at + ENTRY]
}

fn entries(bytes: &mut [u8], change: fn(&mut [u8])) {
    (0..SEATS).for_each(|seat| change(entry(bytes, seat)));
}

fn free(bytes: &mut [u8], change: fn(&mut [u8])) {
    for seat in 0..SEATS {
        let entry = entry(bytes, seat);
        if entry[STATE_AT] == 0 {
            change(entry);
        }
    }
}

/// State, number and vector of a seat.
fn lot(bytes: &[u8], seat: u8) -> (u8, u64, u8) {
    let at = ENTRIES_AT + ENTRY * usize::from(seat);
    let number = bytes[at + NUMBER_AT..at + VECTOR_AT].try_into().unwrap();
    let number = u64::from_be_bytes(number);
    (bytes[at + STATE_AT], number, bytes[at + VECTOR_AT])
}

fn share(bytes: &[u8], one: u8, other: u8) -> usize {
    shared_bits(lot(bytes, one).2, lot(bytes, other).2) as usize
}

/// Of two lots with the same number, the upper one gets the next if that the
/// numbers are equal is not seen.
fn raise_equal_numbers(bytes: &mut [u8], unseen: fn(&[u8], u8) -> bool) {
    for seat in 1..SEATS as u8 {
        let (state, number, _) = lot(bytes, seat);
        let equal = |other: u8| lot(bytes, other).0 != 0 && lot(bytes, other).1 == number;
        if state != 0 && (0..seat).any(equal) && unseen(bytes, seat) {
            let number = number.wrapping_add(1).to_be_bytes();
            entry(bytes, seat.into())[NUMBER_AT..VECTOR_AT].copy_from_slice(&number);
        }
    }
}

/// Takes links away that are not looked at: `(bytes, seat, place, link)`, the
/// place counted by level and side.
fn unlink(bytes: &mut [u8], unseen: fn(&[u8], u8, usize, u8) -> bool) {
    let before = bytes.to_vec();
    for seat in 0..SEATS {
        for place in 0..2 * LEVELS {
            let link = &mut entry(bytes, seat)[LINKS_AT + place];
            if *link != NO_LINK && unseen(&before, seat as u8, place, *link) {
                *link = NO_LINK;
            }
        }
    }
}

/// Takes messages away that are not looked at.
fn take(bytes: &mut [u8], unseen: fn(&[u8], Message) -> bool) {
    for byte in 0..PENDING {
        for bit in 0..8 {
            let set = bytes[PENDING_AT + byte] >> bit & 1 == 1;
            if set && unseen(bytes, message_at(byte * 8 + bit)) {
                bytes[PENDING_AT + byte] &= !(1 << bit);
            }
        }
    }
}
