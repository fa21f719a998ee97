//! Bundles that deliver other messages than the smallest, stop elsewhere than at
//! their limit, or count wrongly.

use super::{caught, right};
use crate::judge::Difference;
use crate::sys::Outcome;
use compare::call::{Answer, Call};
use compare::lent::place::PENDING_AT;
use compare::lent::{self, message_at};
use compare::model::Message;
use std::collections::VecDeque;
use std::ops::Range;

/// A bundle on a sound record; the count.
type Bundle = fn(&mut [u8], u16) -> u16;

fn outcome(bundle: Bundle, record: &mut [u8], limit: u16) -> Outcome {
    let answer = match lent::validate(record) {
        Ok(()) => Answer::accepted([bundle(record, limit).into(), 0, 0, 0, 0]),
        Err(refusal) => Answer::refused(refusal.number()),
    };
    let beside = false;
    Outcome { answer, beside }
}

macro_rules! wrong {
    ($($name:ident: $bundle:expr;)*) => {
        $(#[test]
        fn $name() {
            fn make(memory: &mut [u8], record: Range<usize>, call: Call, fill: u64) -> Outcome {
                match call {
                    Call::Bundle { limit } => outcome($bundle, &mut memory[record], limit),
                    _ => right(memory, record, call, fill),
                }
            }
            let (difference, calls) = caught(make).expect("the fault is not caught");
            println!("{}: {calls} calls", stringify!($name));
            let is_expected =
                matches!(difference, Difference::Answer { .. } | Difference::Byte { .. });
            assert!(is_expected, "{difference:?}");
        })*
    };
}

wrong! {
    stops_one_short: |record, limit| smallest(record, limit.saturating_sub(1));
    stops_before_the_last: |record, limit| {
        let all = smallest(&mut record.to_vec(), u16::MAX);
        smallest(record, limit.min(all.saturating_sub(1)))
    };
    delivers_the_largest: |record, limit| deliver_each(record, limit, largest);
    delivers_the_first_sent: first_sent;
    delivers_nothing_that_it_sends: |record, limit| {
        let mut pending = VecDeque::from(pending(record));
        deliver_each(record, limit, |_| pending.pop_front())
    };
    never_looks_back: |record, limit| {
        let mut from = Message { kind: 0, to: 0, about: 0, level: 0, side: 0 };
        deliver_each(record, limit, |record| {
            let next = lent::next_message(record, from).expect("the record is sound");
            from = next.unwrap_or(from);
            next
        })
    };
    counts_one_too_many: |record, limit| smallest(record, limit).saturating_add(1);
    counts_in_eight_bits: |record, limit| smallest(record, limit) % 256;
    delivers_at_limit_0: |record, limit| smallest(record, limit.max(1)).min(limit);
    counts_the_limit_where_nothing_is_left: |record, limit| {
        smallest(record, limit);
        limit
    };
    limit_in_eight_bits: |record, limit| smallest(record, limit % 256);
}

/// What a bundle should do.
fn smallest(record: &mut [u8], limit: u16) -> u16 {
    lent::bundle(record, limit).expect("the record is sound")
}

fn deliver_each(
    record: &mut [u8],
    limit: u16,
    mut next: impl FnMut(&[u8]) -> Option<Message>,
) -> u16 {
    let mut delivered = 0;
    while delivered < limit {
        let Some(message) = next(record) else {
            break;
        };
        lent::deliver(record, message).expect("the message is pending");
        delivered += 1;
    }
    delivered
}

/// The pending messages, ascending.
fn pending(record: &[u8]) -> Vec<Message> {
    let bytes = (0..).zip(&record[PENDING_AT..]);
    let bits = bytes.flat_map(|(at, byte)| (0..8).map(move |bit| (8 * at + bit, byte >> bit & 1)));
    let set = bits.filter(|(_, bit)| *bit == 1);
    set.map(|(place, _)| message_at(place)).collect()
}

fn largest(record: &[u8]) -> Option<Message> {
    pending(record).pop()
}

/// What is pending at first, then what was sent, in the order of sending.
fn first_sent(record: &mut [u8], limit: u16) -> u16 {
    let mut waiting = VecDeque::from(pending(record));
    deliver_each(record, limit, |record| {
        let message = waiting.pop_front()?;
        let model = lent::from_bytes(record).expect("the record is sound");
        let sends = model.effect(message).sends.into_iter();
        waiting.extend(sends.filter(|sent| !model.is_pending(*sent)));
        Some(message)
    })
}
