//! Calls by which a lot takes a seat, holds it or means to leave it.

use super::records::{lots_of_one_remainder, of_remainder_0, settled, settled_of, NEW, NO_CONTACT};
use super::{on_each, row, Row, HALF};
use compare::call::Call;
use compare::graph::SEATS;

/// It does the same whatever the bytes are: on an empty record nothing has to be
/// put back between two of them.
pub(super) fn open(rows: &mut Vec<Row>, [empty, _, _]: [&[u8]; 3]) {
    rows.push(row("any", empty, Call::Open));
}

/// Also to lots whose numbers leave one remainder, with another such number.
pub(super) fn join(rows: &mut Vec<Row>, records: [&[u8]; 3]) {
    let (number, vector) = NEW;
    let join = |seat, number, contact| Call::Join {
        seat,
        number,
        vector,
        contact,
    };
    for (what, record, seat, contact) in with_a_seat_left(records) {
        rows.push(row(what, &record, join(seat, number, contact)));
    }
    let alike = settled_of(&lots_of_one_remainder(SEATS - 1));
    let last = join(LAST, of_remainder_0(number), 0);
    rows.push(row("63 lots, one remainder", &alike, last));
}

pub(super) fn reserve(rows: &mut Vec<Row>, records: [&[u8]; 3]) {
    for (what, record, seat, _) in with_a_seat_left(records) {
        rows.push(row(what, &record, reservation(seat)));
    }
}

pub(super) fn confirm(rows: &mut Vec<Row>, records: [&[u8]; 3]) {
    for (what, record, seat, contact) in with_a_seat_reserved(records) {
        rows.push(row(&what, &record, Call::Confirm { seat, contact }));
    }
}

pub(super) fn give_back(rows: &mut Vec<Row>, records: [&[u8]; 3]) {
    for (what, record, seat, _) in with_a_seat_reserved(records) {
        rows.push(row(&what, &record, Call::GiveBack { seat }));
    }
}

pub(super) fn leave(rows: &mut Vec<Row>, records: [&[u8]; 3]) {
    on_each(rows, records, Call::Leave { seat: 7 });
}

fn reservation(seat: u8) -> Call {
    let (number, vector) = NEW;
    Call::Reserve {
        seat,
        number,
        vector,
    }
}

const LAST: u8 = SEATS as u8 - 1;

/// An empty record, a half full one and a full one but for a seat: the first free seat
/// of each, and the contact of who takes it.
fn with_a_seat_left([empty, half, _]: [&[u8]; 3]) -> [(&'static str, Vec<u8>, u8, u8); 3] {
    [
        ("empty", empty.to_vec(), 0, NO_CONTACT),
        ("32 lots", half.to_vec(), HALF as u8, 0),
        ("63 lots", settled(SEATS - 1), LAST, 0),
    ]
}

/// The same when that seat is reserved.
fn with_a_seat_reserved(records: [&[u8]; 3]) -> [(String, Vec<u8>, u8, u8); 3] {
    with_a_seat_left(records).map(|(what, mut record, seat, contact)| {
        reservation(seat).on_bytes(&mut record);
        (format!("{what}, one reserved"), record, seat, contact)
    })
}
