//! An accepted crash: what it frees and sends, and that each component which it leaves is
//! a skip graph once all is delivered (document 02, #106).

use super::{drained, holds, Check};
use crate::graph::Links;
use crate::model::{Lot, Message, Model};
use std::collections::BTreeSet;

pub fn check(seats: u64, before: &Model, after: &Model) -> Check {
    if seats == 0 {
        return holds(after == before, "a crash of nobody changed the record");
    }
    frees_exactly(seats, before, after)?;
    holds(
        *after.pending() == meetings(after),
        "a crash does not send what it says",
    )?;
    drained::check(after, seats).map(drop)
}

fn is_named(seats: u64, seat: u8) -> bool {
    seats >> seat & 1 == 1
}

/// The named lots are gone, links to them are none, and all else is as it was.
fn frees_exactly(seats: u64, before: &Model, after: &Model) -> Check {
    let left = before.taken().filter(|(seat, _)| !is_named(seats, *seat));
    let left = left.map(|(seat, lot)| {
        let mut lot: Lot = lot.clone();
        lot.links = without(seats, lot.links);
        (seat, lot)
    });
    let is = after.taken().map(|(seat, lot)| (seat, lot.clone()));
    holds(
        left.eq(is) && before.phase() == after.phase(),
        "a crash does not free what it says",
    )
}

fn without(seats: u64, mut links: Links) -> Links {
    for link in links.iter_mut().flatten() {
        link.take_if(|seat| is_named(seats, *seat));
    }
    links
}

/// To each end of each link at levels 1 to 8 about the other.
fn meetings(after: &Model) -> BTreeSet<Message> {
    let mut sent = BTreeSet::new();
    for (seat, lot) in after.seated() {
        for link in lot.links.iter().skip(1).flatten().flatten() {
            sent.insert(Message::meet(seat, *link, 0));
            sent.insert(Message::meet(*link, seat, 0));
        }
    }
    sent
}
