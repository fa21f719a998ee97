//! Searches, the check and the reading calls.

use super::records::{lots, lots_of_one_remainder, on_one_message, settled_of};
use super::{crashes, on_each, row, Row, EACH, HALF};
use compare::call::Call;
use compare::graph::SEATS;
use compare::lent;
use compare::model::Message;

/// The search with the most hops; the same where half of the lots leave, which it
/// goes past, and in records of several components; and one that a message with seats of
/// the middle makes wait.
pub(super) fn find(rows: &mut Vec<Row>, records: [&[u8]; 3]) {
    for (what, record) in EACH.into_iter().zip(records) {
        rows.push(longest_search(what, record));
    }
    let leaving = upper_half_leaving(records[2]);
    let what = format!("64 lots, past {HALF} leavers");
    rows.push(longest_search(&what, &leaving));
    crashes::find(rows);
    let (longest, _) = most_hops(records[2]);
    rows.push(on_one_message(SEATS, HALF as u8, longest));
}

/// The full record, in which the lots with the largest numbers leave.
fn upper_half_leaving(full: &[u8]) -> Vec<u8> {
    let (mut leaving, mut lots) = (full.to_vec(), lots(SEATS));
    lots.sort_unstable_by_key(|lot| lot.number);
    for lot in &lots[HALF..] {
        lent::leave(&mut leaving, lot.seat).expect("the lot stays");
    }
    leaving
}

/// The row of the search with the most hops, which says how many it has.
pub(super) fn longest_search(what: &str, record: &[u8]) -> Row {
    match most_hops(record) {
        (longest, 0) => row(what, record, longest),
        (longest, hops) => row(&format!("{what}, {hops} hops"), record, longest),
    }
}

fn most_hops(record: &[u8]) -> (Call, u64) {
    let searches = (0..SEATS as u8).flat_map(|seat| {
        let ends = [0, u64::MAX / 2, u64::MAX];
        ends.map(|number| Call::Find { seat, number })
    });
    let hops = |call: Call| call.on_bytes(&mut record.to_vec()).values[1];
    let searches = searches.map(|call| (call, hops(call)));
    let longest = searches.max_by_key(|&(_, hops)| hops);
    longest.expect("there are searches")
}

pub(super) fn check(rows: &mut Vec<Row>, records: [&[u8]; 3]) {
    on_each(rows, records, Call::Check);
    crashes::on_components(rows, Call::Check);
}

pub(super) fn read_lot(rows: &mut Vec<Row>, records: [&[u8]; 3]) {
    on_each(rows, records, Call::ReadLot { seat: 7 });
}

pub(super) fn read_link(rows: &mut Vec<Row>, records: [&[u8]; 3]) {
    let (seat, level, side) = (7, 1, 0);
    on_each(rows, records, Call::ReadLink { seat, level, side });
}

pub(super) fn read_message(rows: &mut Vec<Row>, records: [&[u8]; 3]) {
    on_each(rows, records, Call::ReadMessage(Message::meet(7, 3, 1)));
}

pub(super) fn read_counts(rows: &mut Vec<Row>, records: [&[u8]; 3]) {
    on_each(rows, records, Call::ReadCounts);
}

/// Also where half of the seats are reserved, in sixteen components, and where all
/// numbers leave one remainder.
pub(super) fn validate(rows: &mut Vec<Row>, records: [&[u8]; 3]) {
    on_each(rows, records, Call::Validate);
    let mut reserved = records[1].to_vec();
    for lot in &lots(SEATS)[HALF..] {
        lent::reserve(&mut reserved, lot.seat, lot.number, lot.vector).expect("the seat is free");
    }
    rows.push(row("32 lots, 32 reserved", &reserved, Call::Validate));
    rows.push(crashes::in_16(Call::Validate));
    let alike = settled_of(&lots_of_one_remainder(SEATS));
    rows.push(row("64 lots, one remainder", &alike, Call::Validate));
}

/// The smallest of what is pending: nothing, and a message with seats of the
/// middle.
pub(super) fn next_message(rows: &mut Vec<Row>, records: [&[u8]; 3]) {
    let first = Call::NextMessage(FIRST);
    on_each(rows, records, first);
    rows.push(on_one_message(SEATS, HALF as u8, first));
}

/// Numbers that come before every message.
pub(super) const FIRST: Message = Message {
    kind: 0,
    to: 0,
    about: 0,
    level: 0,
    side: 0,
};
