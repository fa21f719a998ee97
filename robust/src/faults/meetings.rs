//! Meetings that write a link wrongly: beside its place, together with the
//! opposite one, or where it stays.

use super::{caught, right};
use crate::judge::Difference;
use crate::sys::Outcome;
use compare::call::Call;
use compare::graph::Side;
use compare::lent;
use compare::lent::place::*;
use compare::model::Message;
use std::ops::Range;

/// What a MEET writes that it should not, given the record before and after, the
/// message and the side on which `about` lies.
type Writing = fn(&[u8], &mut [u8], Message, Side);

/// Each with the sort of byte that differs where it is caught.
macro_rules! wrong {
    ($($name:ident shows $sort:pat => $writing:expr;)*) => {
        $(#[test]
        fn $name() {
            fn make(memory: &mut [u8], record: Range<usize>, call: Call, fill: u64) -> Outcome {
                let before = memory[record.clone()].to_vec();
                let outcome = right(memory, record.clone(), call, fill);
                match call {
                    Call::Deliver(m) if m.kind == 1 && outcome.answer.refusal == 0 => {
                        let writing: Writing = $writing;
                        writing(&before, &mut memory[record], m, side_of_about(&before, m));
                    }
                    _ => {}
                }
                outcome
            }
            let (difference, calls) = caught(make).expect("the fault is not caught");
            println!("{}: {calls} calls", stringify!($name));
            assert!(matches!(difference, $sort), "{difference:?}");
        })*
    };
}

wrong! {
    link_one_byte_beside shows Difference::Byte { at: ENTRIES_AT..PENDING_AT, .. } =>
        |before, after, m, side| {
            let at = place(m, side);
            if after[at] != before[at] {
                after[at] = before[at];
                after[at - 1] = m.about;
            }
        };
    opposite_link_cleared shows Difference::Byte { rust: 0..64, library: NO_LINK, .. } =>
        |before, after, m, side| {
            let at = place(m, side);
            if after[at] != before[at] {
                after[place(m, side.away())] = NO_LINK;
            }
        };
    // The link stays though it is another lot: the nearer one.
    link_set_though_passed_on shows Difference::Byte { rust: 0..64, library: 0..64, .. } =>
        |before, after, m, side| {
            let at = place(m, side);
            if after[at] == before[at] && before[at] != m.about {
                after[at] = m.about;
            }
        };
}

/// Where in a record the link of `to` on a side lies, at the message's level.
fn place(m: Message, side: Side) -> usize {
    let entry = ENTRIES_AT + ENTRY * usize::from(m.to);
    entry + link_at(m.level.into(), side as usize)
}

/// The side of `to` on which `about` lies.
fn side_of_about(record: &[u8], m: Message) -> Side {
    let lot = |seat| lent::read_lot(record, seat).expect("the lot is seated");
    Side::toward(lot(m.to).number, lot(m.about).number)
}
