//! A call made by the library and by Rust, neither inlined. Both give the
//! refusal and the sum of the values, so that no value goes unused.

use compare::call::Call;
use compare::lent;
use compare::model::{Message, Refusal};
use lots_record::sys::*;

/// [`library`] or [`rust`].
pub type Make = fn(Call, &mut [u8]) -> (u8, u64);

/// The sum of the bytes, one by one.
#[inline(never)]
pub fn pass(record: &[u8]) -> u64 {
    record.iter().map(|&byte| u64::from(byte)).sum()
}

/// The sum of the words of eight bytes: nearer to what a pass has to cost.
#[inline(never)]
pub fn pass_by_words(record: &[u8]) -> u64 {
    let (words, _) = record.as_chunks();
    let sum = |sum: u64, &word: &[u8; 8]| sum.wrapping_add(u64::from_le_bytes(word));
    words.iter().fold(0, sum)
}

#[inline(never)]
pub fn library(call: Call, record: &mut [u8]) -> (u8, u64) {
    let (start, length) = (record.as_mut_ptr(), record.len());
    let (mut byte, mut other, mut half, mut word, mut long) = (0u8, 0u8, 0u16, 0u32, 0u64);
    // SAFETY: the record is valid for its length, and so are the outputs.
    let refusal = unsafe {
        match call {
            Call::Open => lots_open(start, length),
            Call::Join {
                seat,
                number,
                vector,
                contact,
            } => lots_join(start, length, seat, number, vector, contact),
            Call::Reserve {
                seat,
                number,
                vector,
            } => lots_reserve(start, length, seat, number, vector),
            Call::Confirm { seat, contact } => lots_confirm(start, length, seat, contact),
            Call::GiveBack { seat } => lots_give_back(start, length, seat),
            Call::Leave { seat } => lots_leave(start, length, seat),
            Call::Deliver(m) => lots_deliver(start, length, m.kind, m.to, m.about, m.level, m.side),
            Call::Bundle { limit } => lots_bundle(start, length, limit, &mut half),
            Call::Turn => lots_turn(start, length),
            Call::Crash { seats } => lots_crash(start, length, seats),
            Call::Merge { first, second } => lots_merge(start, length, first, second),
            Call::Find { seat, number } => {
                lots_find(start, length, seat, number, &mut byte, &mut long)
            }
            Call::Check => lots_check(start, length, &mut byte),
            Call::ReadLot { seat } => {
                lots_read_lot(start, length, seat, &mut byte, &mut long, &mut other)
            }
            Call::ReadLink { seat, level, side } => {
                lots_read_link(start, length, seat, level, side, &mut byte)
            }
            Call::ReadMessage(m) => {
                let (kind, to, about) = (m.kind, m.to, m.about);
                lots_read_message(start, length, kind, to, about, m.level, m.side, &mut byte)
            }
            Call::ReadCounts => lots_read_counts(start, length, &mut byte, &mut other, &mut word),
            Call::Validate => lots_validate(start, length),
            Call::NextMessage(m) => {
                let (kind, to, about) = (m.kind, m.to, m.about);
                let mut five = [0u8; 5];
                let [k, t, a, l, s] = &mut five;
                let refusal = lots_next_message(
                    start, length, kind, to, about, m.level, m.side, k, t, a, l, s,
                );
                long = five.into_iter().map(u64::from).sum();
                refusal
            }
        }
    };
    let sum = u64::from(byte) + u64::from(other) + u64::from(half) + u64::from(word);
    (refusal, sum.wrapping_add(long))
}

#[inline(never)]
pub fn rust(call: Call, record: &mut [u8]) -> (u8, u64) {
    let sum = match call {
        Call::Open => lent::open(record).map(|()| 0),
        Call::Join {
            seat,
            number,
            vector,
            contact,
        } => lent::join(record, seat, number, vector, contact).map(|()| 0),
        Call::Reserve {
            seat,
            number,
            vector,
        } => lent::reserve(record, seat, number, vector).map(|()| 0),
        Call::Confirm { seat, contact } => lent::confirm(record, seat, contact).map(|()| 0),
        Call::GiveBack { seat } => lent::give_back(record, seat).map(|()| 0),
        Call::Leave { seat } => lent::leave(record, seat).map(|()| 0),
        Call::Deliver(message) => lent::deliver(record, message).map(|()| 0),
        Call::Bundle { limit } => lent::bundle(record, limit).map(u64::from),
        Call::Turn => lent::turn(record).map(|()| 0),
        Call::Crash { seats } => lent::crash(record, seats).map(|()| 0),
        Call::Merge { first, second } => lent::merge(record, first, second).map(|()| 0),
        Call::Find { seat, number } => lent::find(record, seat, number)
            .map(|found| u64::from(found.holder.unwrap_or(255)) + u64::from(found.hops)),
        Call::Check => lent::check(record).map(u64::from),
        Call::ReadLot { seat } => lent::read_lot(record, seat).map(|lot| {
            let small = u64::from(lot.state) + u64::from(lot.vector);
            small.wrapping_add(lot.number)
        }),
        Call::ReadLink { seat, level, side } => {
            lent::read_link(record, seat, level, side).map(u64::from)
        }
        Call::ReadMessage(message) => lent::read_message(record, message).map(u64::from),
        Call::ReadCounts => lent::read_counts(record).map(|counts| {
            let small = u64::from(counts.lots) + counts.phase as u64;
            small + u64::from(counts.pending)
        }),
        Call::Validate => lent::validate(record).map(|()| 0),
        Call::NextMessage(from) => lent::next_message(record, from).map(|next| {
            let five = |m: Message| [m.kind, m.to, m.about, m.level, m.side];
            next.map_or([0; 5], five).into_iter().map(u64::from).sum()
        }),
    };
    match sum {
        Ok(sum) => (0, sum),
        Err(refusal) => (Refusal::number(refusal), 0),
    }
}
