//! Deliveries, one by one and by the bundle, and turns.

use super::records::{
    a_quarter_cleared, a_quarter_clears, a_quarter_leaves, joins, on_one_message, settled,
};
use super::{on_each, row, Row, HALF};
use compare::call::Call;
use compare::graph::SEATS;
use compare::model::Message;

/// Of the message by which the last lot joins.
pub(super) fn deliver(rows: &mut Vec<Row>, [empty, _, _]: [&[u8]; 3]) {
    let meet = |about| Message::meet(0, about, 0);
    rows.push(row("empty", empty, Call::Deliver(meet(1))));
    for lots in [HALF, SEATS] {
        let last = Call::Deliver(meet(lots as u8 - 1));
        rows.push(on_one_message(lots, 0, last));
    }
}

/// With nothing pending, what the call costs alone; all deliveries that 64 joins
/// lead to, without the joins; and all that a quarter's leaving leads to, GOING, SEEK,
/// FOUND and NONE.
pub(super) fn bundle(rows: &mut Vec<Row>, records: [&[u8]; 3]) {
    on_each(rows, records, LARGEST);
    let mut joined = settled(0);
    for join in joins() {
        join.on_bytes(&mut joined);
    }
    rows.push(bundle_of_all("64 lots", &joined));
    let clearing = a_quarter_clears(records[2], SEATS);
    rows.push(bundle_of_all("64 lots, a quarter leaves", &clearing));
}

const LARGEST: Call = Call::Bundle { limit: u16::MAX };

/// So many deliveries are made in about the time of a settled record.
const DELIVERIES: usize = 100;

fn bundle_of_all(what: &str, start: &[u8]) -> Row {
    let [deliveries, ..] = LARGEST.on_bytes(&mut start.to_vec()).values;
    Row {
        length: (deliveries as usize).div_ceil(DELIVERIES),
        ..row(&format!("{what}, {deliveries} deliveries"), start, LARGEST)
    }
}

/// From open with a quarter of the lots leaving, and from clearing.
pub(super) fn turn(rows: &mut Vec<Row>, [empty, half, full]: [&[u8]; 3]) {
    rows.push(row("empty", empty, Call::Turn));
    for (lots, record) in [(HALF, half), (SEATS, full)] {
        let what = format!("{lots} lots");
        rows.push(row(&format!("{what}, none leaves"), record, Call::Turn));
        turns_of_a_quarter(rows, &what, record, lots);
    }
}

/// The turn by which a quarter of the lots of a settled record begins to leave, and
/// the one by which it has left.
pub(super) fn turns_of_a_quarter(rows: &mut Vec<Row>, what: &str, settled: &[u8], lots: usize) {
    let leaving = a_quarter_leaves(settled, lots);
    rows.push(row(
        &format!("{what}, a quarter leaves"),
        &leaving,
        Call::Turn,
    ));
    let cleared = a_quarter_cleared(settled, lots);
    rows.push(row(
        &format!("{what}, a quarter cleared"),
        &cleared,
        Call::Turn,
    ));
}
