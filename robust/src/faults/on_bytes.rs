//! Libraries that are wrong on the bytes of sound records, and what they read and
//! write there.

use super::right;
use crate::sys::Outcome;
use compare::lent::place_of;
use compare::model::State;
use std::ops::Range;

pub use compare::call::{Answer, Call};
pub use compare::graph::SEATS;
pub use compare::lent;
pub use compare::lent::place::*;
pub use compare::model::Message;

pub const FREE: u8 = 0;
pub const STAYING: u8 = State::Staying as u8;
pub const LEAVING: u8 = State::Leaving as u8;
pub const RESERVED: u8 = State::Reserved as u8;

/// What a call of a sound record answers in place of what it should, given the record
/// before and after.
pub type Wrong = fn(&[u8], &mut [u8], Call, Answer) -> Answer;

pub fn outcome(wrong: Wrong, memory: &mut [u8], record: Range<usize>, call: Call) -> Outcome {
    let before = memory[record.clone()].to_vec();
    let mut outcome = right(memory, record.clone(), call, 0);
    if lent::validate(&before).is_ok() {
        outcome.answer = wrong(&before, &mut memory[record], call, outcome.answer);
    }
    outcome
}

/// Each with the sort of difference where it is caught.
macro_rules! wrong_on_bytes {
    ($($name:ident shows $sort:pat => $wrong:expr;)*) => {
        $(#[test]
        fn $name() {
            fn make(
                memory: &mut [u8],
                record: std::ops::Range<usize>,
                call: Call,
                _: u64,
            ) -> $crate::sys::Outcome {
                outcome($wrong, memory, record, call)
            }
            let (difference, calls) = $crate::faults::caught(make).expect("the fault is not caught");
            println!("{}: {calls} calls", stringify!($name));
            assert!(matches!(difference, $sort), "{difference:?}");
        })*
    };
}

/// Where the entry of a seat begins.
pub fn at(seat: u8) -> usize {
    ENTRIES_AT + ENTRY * usize::from(seat)
}

pub fn state(bytes: &[u8], seat: u8) -> u8 {
    bytes[at(seat) + STATE_AT]
}

pub fn number(bytes: &[u8], seat: u8) -> u64 {
    let number = bytes[at(seat) + NUMBER_AT..at(seat) + VECTOR_AT].try_into();
    u64::from_be_bytes(number.expect("a number has eight bytes"))
}

pub fn is_seated(record: &[u8], seat: u8) -> bool {
    [STAYING, LEAVING].contains(&state(record, seat))
}

/// Whether a set of seats has this one.
pub fn is_in(seats: u64, seat: u8) -> bool {
    seats >> seat & 1 == 1
}

/// The seats in a state, ascending.
pub fn seats_in(bytes: &[u8], wanted: u8) -> impl Iterator<Item = u8> + '_ {
    (0..SEATS as u8).filter(move |&seat| state(bytes, seat) == wanted)
}

pub fn set(bytes: &mut [u8], message: Message) {
    let place = place_of(message).expect("the message has a place");
    bytes[PENDING_AT + place / 8] |= 1 << (place % 8);
}

pub fn take_away(bytes: &mut [u8], message: Message) {
    let place = place_of(message).expect("the message has a place");
    bytes[PENDING_AT + place / 8] &= !(1 << (place % 8));
}

/// The entry of a free seat.
pub fn freed(entry: &mut [u8]) {
    entry[..LINKS_AT].fill(0);
    entry[LINKS_AT..].fill(NO_LINK);
}
