//! Searches that are refused otherwise: what makes a record unsettled is
//! overlooked, or 13 given where it is not due.

use super::{caught, put_right, right};
use crate::judge::Difference;
use crate::sys::Outcome;
use crate::tally::leavers::has_leaver;
use compare::call::{Answer, Call};
use compare::graph::LEVELS;
use compare::lent::place::*;
use compare::lent::SIZE;
use compare::unsettled::Unsettled;
use std::ops::Range;

/// What a search of a record answers in place of what it should.
type Search = fn(&[u8], Call, Answer) -> Answer;

/// Each with the refusal that the search should meet where it is caught, 0 for
/// none.
macro_rules! wrong {
    ($($name:ident instead of $refusal:literal => $search:expr;)*) => {
        $(#[test]
        fn $name() {
            fn make(memory: &mut [u8], record: Range<usize>, call: Call, fill: u64) -> Outcome {
                let search: Search = $search;
                let mut outcome = right(memory, record.clone(), call, fill);
                if let Call::Find { .. } = call {
                    outcome.answer = search(&memory[record], call, outcome.answer);
                }
                outcome
            }
            let (difference, calls) = caught(make).expect("the fault is not caught");
            println!("{}: {calls} calls", stringify!($name));
            let Difference::Answer { rust, .. } = difference else {
                panic!("{difference:?}");
            };
            assert_eq!(rust.refusal, $refusal);
        })*
    };
}

wrong! {
    check_not_asked instead of 13 => |record, call, answer| {
        with_links_right(record, call, answer, 0..LEVELS)
    };
    only_level_0_asked instead of 13 => |record, call, answer| {
        with_links_right(record, call, answer, 1..LEVELS)
    };
    level_8_not_asked instead of 13 => |record, call, answer| {
        with_links_right(record, call, answer, LEVELS - 1..LEVELS)
    };
    unsettled_before_empty_seat instead of 8 => |record, _, answer| match answer.refusal {
        8 if Unsettled::of_bytes(record).is_some() => Answer::refused(13),
        _ => answer,
    };
    unsettled_before_no_such_seat instead of 3 => |record, _, answer| match answer.refusal {
        3 if Unsettled::of_bytes(record).is_some() => Answer::refused(13),
        _ => answer,
    };
    leaver_unsettles instead of 0 => |record, _, answer| match answer.refusal {
        0 if has_leaver(record) => Answer::refused(13),
        _ => answer,
    };
    // All that may be pending in phase open stands in the first half, so only an
    // unsound record shows it.
    first_half_of_the_pending instead of 2 => |record, call, answer| {
        without_pending(record, call, answer, PENDING / 2)
    };
    first_half_of_the_pending_of_phase_open instead of 13 => |record, call, answer| {
        match answer.refusal {
            13 => without_pending(record, call, answer, GOING / 2 / 8),
            _ => answer,
        }
    };
    clearing_overlooked instead of 13 => |record, call, answer| match Unsettled::of_bytes(record) {
        Some(Unsettled::Clearing) => on_other(record, call, |bytes| bytes[PHASE_AT] = 0),
        _ => answer,
    };
}

/// What the search answers for a record that is changed first.
fn on_other(record: &[u8], call: Call, change: impl Fn(&mut [u8])) -> Answer {
    let mut other = record.to_vec();
    change(&mut other);
    call.on_bytes(&mut other)
}

/// As if the links of some levels were right.
fn with_links_right(record: &[u8], call: Call, answer: Answer, levels: Range<usize>) -> Answer {
    match answer.refusal {
        13 => on_other(record, call, |bytes| put_right(bytes, levels.clone())),
        _ => answer,
    }
}

/// As if none of the bytes of pending bits from one on held any.
fn without_pending(record: &[u8], call: Call, answer: Answer, from: usize) -> Answer {
    match record.len() {
        SIZE => on_other(record, call, |bytes| bytes[PENDING_AT + from..].fill(0)),
        _ => answer,
    }
}
