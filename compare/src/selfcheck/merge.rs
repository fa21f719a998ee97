//! An accepted merge: what it sends, that it changes nothing else, and what two
//! components, or one, come to once all is delivered (document 02, #107).

use super::{drained, holds, Check};
use crate::model::{Message, Model};

pub fn check(first: u8, second: u8, before: &Model, after: &Model) -> Check {
    let mut pending = before.pending().clone();
    pending.insert(Message::meet(first, second, 0));
    holds(
        *after.pending() == pending,
        "a merge does not send what it says",
    )?;
    holds(
        after.taken().eq(before.taken()) && after.phase() == before.phase(),
        "a merge changes more than what is pending",
    )?;
    let was = drained::joined(before);
    let of = |seat: u8| {
        let mut seats = before.seated().map(|(seat, _)| seat);
        let place = seats.position(|other| other == seat);
        place.map(|place| was[place])
    };
    let (one, other) = (of(first), of(second));
    let united = was.iter().map(|&component| match Some(component) {
        of if of == one || of == other => one.min(other),
        of => of,
    });
    holds(
        united.eq(drained::joined(after).into_iter().map(Some)),
        "a merge does not make two components one, or others others",
    )?;
    let seed = u64::from(first) << 8 | u64::from(second);
    let drained = drained::check(after, seed)?;
    if one != other {
        return Ok(());
    }
    holds(
        drained == drained::smallest_first(before)?,
        "a merge within a component changes what it comes to",
    )
}
