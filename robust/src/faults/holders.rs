//! Searches that go past leaving lots wrongly: they name one, stop too early or go
//! too far, or count their steps otherwise.

use super::{caught, right};
use crate::judge::Difference;
use crate::sys::Outcome;
use crate::tally::leavers::is_leaving;
use compare::call::{Answer, Call, NO_VALUES};
use compare::graph::SEATS;
use compare::lent;
use compare::lent::place::*;
use compare::model::{Found, State};
use compare::scan::Scan;
use std::ops::Range;

/// A search that comes to a leaving lot.
struct Past<'a> {
    record: &'a [u8],
    /// Whether that lot lies left of the walk's end.
    left_of_end: bool,
    /// That lot, and the hops as far as there.
    leaver: Found,
    right: Found,
}

/// Each with what differs where it is caught: the holder, or the hops alone.
macro_rules! wrong {
    ($($name:ident shows $what:literal => $search:expr;)*) => {
        $(#[test]
        fn $name() {
            fn make(memory: &mut [u8], record: Range<usize>, call: Call, fill: u64) -> Outcome {
                let mut outcome = right(memory, record.clone(), call, fill);
                if let Some(past) = Past::of(&memory[record], call) {
                    let search: fn(Past) -> Found = $search;
                    outcome.answer = answer(search(past));
                }
                outcome
            }
            let (difference, calls) = caught(make).expect("the fault is not caught");
            println!("{}: {calls} calls", stringify!($name));
            assert_eq!(what_differs(difference), $what, "{difference:?}");
        })*
    };
}

wrong! {
    leaver_named shows "holder" => |past| past.leaver;
    leaver_left_of_the_end_named shows "holder" => |past| match past.left_of_end {
        true => past.leaver,
        false => past.right,
    };
    second_leaver_named shows "holder" => |past| step_left(past.record, past.leaver);
    none_at_the_second_leaver shows "holder" => |past| {
        match step_left(past.record, past.leaver) {
            Found { holder: Some(seat), hops } if is_leaving(past.record, seat) => none(past, hops),
            second => second,
        }
    };
    none_at_a_leaver shows "holder" => |past| {
        let hops = past.leaver.hops;
        none(past, hops)
    };
    left_steps_not_counted shows "hops" => |past| Found { hops: past.leaver.hops, ..past.right };
    missing_link_counted shows "hops" => |past| Found {
        hops: past.right.hops + u32::from(past.right.holder.is_none()),
        ..past.right
    };
    smallest_staying_lot_named shows "holder" => |past| {
        let (mut last, mut at) = (past.right, past.right);
        while let Some(seat) = at.holder {
            if !is_leaving(past.record, seat) {
                last = at;
            }
            at = step_left(past.record, at);
        }
        last
    };
}

impl Past<'_> {
    /// None if the call is no search that comes to a leaving lot.
    fn of(record: &[u8], call: Call) -> Option<Past<'_>> {
        let Call::Find { seat, number } = call else {
            return None;
        };
        let right = lent::find(record, seat, number).ok()?;
        let scan = Scan::of_bytes(record, seat, number).filter(|scan| scan.leavers > 0)?;
        let leaver = lent::find(&all_staying(record), seat, number);
        Some(Past {
            record,
            left_of_end: scan.ends_above,
            leaver: leaver.expect("the record is settled"),
            right,
        })
    }
}

/// None too early, where a lot stays further left.
fn none(past: Past, hops: u32) -> Found {
    let holder = None;
    match past.right.holder {
        Some(_) => Found { holder, hops },
        None => past.right,
    }
}

/// The record as if no lot were leaving.
fn all_staying(record: &[u8]) -> Vec<u8> {
    let mut other = record.to_vec();
    for seat in 0..SEATS {
        let state = &mut other[ENTRIES_AT + ENTRY * seat + STATE_AT];
        if *state == State::Leaving as u8 {
            *state = State::Staying as u8;
        }
    }
    other
}

fn step_left(record: &[u8], from: Found) -> Found {
    let link = |seat| lent::read_link(record, seat, 0, 0).expect("the lot is seated");
    let holder = from.holder.map(link).filter(|&link| link != NO_LINK);
    let hops = from.hops + u32::from(holder.is_some());
    Found { holder, hops }
}

fn answer(Found { holder, hops }: Found) -> Answer {
    let mut values = NO_VALUES;
    values[..2].copy_from_slice(&[holder.unwrap_or(NO_LINK).into(), hops.into()]);
    Answer::accepted(values)
}

fn what_differs(difference: Difference) -> &'static str {
    let Difference::Answer { rust, library } = difference else {
        return "no answer";
    };
    match rust.values[0] == library.values[0] {
        true => "hops",
        false => "holder",
    }
}
