//! Crashes and merges, and calls on records of several components.

use super::reads::longest_search;
use super::records::{in_components, on_one_message};
use super::{row, Row, HALF};
use compare::call::Call;
use compare::graph::SEATS;

/// The set of the lots on seat 7 alone.
const ONE: u64 = 1 << 7;
/// A crash of that lot.
pub(super) const OF_ONE: Call = Call::Crash { seats: ONE };

/// Of nobody, of one lot, of every other one, and of one while a message is pending.
pub(super) fn crash(rows: &mut Vec<Row>, [empty, half, full]: [&[u8]; 3]) {
    let crash = |seats| Call::Crash { seats };
    rows.push(row("empty, nobody", empty, crash(0)));
    rows.push(row("64 lots, nobody", full, crash(0)));
    rows.push(row("32 lots, one", half, OF_ONE));
    rows.push(row("64 lots, one", full, OF_ONE));
    let every_other = u64::MAX / 3;
    rows.push(row("64 lots, every other", full, crash(every_other)));
    for (what, record) in several() {
        rows.push(row(&format!("{what}, one"), &record, OF_ONE));
    }
    rows.push(on_one_message(SEATS, HALF as u8, OF_ONE));
}

/// Of two lots of one component, of two components, and of a lot with itself, with
/// nothing pending; and while a message is.
pub(super) fn merge(rows: &mut Vec<Row>, [empty, half, full]: [&[u8]; 3]) {
    let merge = |first, second| Call::Merge { first, second };
    rows.push(row("empty", empty, merge(7, 8)));
    rows.push(row("32 lots", half, merge(7, 8)));
    rows.push(row("64 lots", full, merge(7, 8)));
    on_components(rows, merge(7, 8));
    rows.push(row("64 lots, one twice", full, merge(7, 7)));
    rows.push(on_one_message(SEATS, HALF as u8, merge(7, 8)));
}

/// The one with the most hops.
pub(super) fn find(rows: &mut Vec<Row>) {
    rows.extend(several().map(|(what, record)| longest_search(what, &record)));
}

pub(super) fn on_components(rows: &mut Vec<Row>, call: Call) {
    rows.extend(several().map(|(what, record)| row(what, &record, call)));
}

/// Sixteen components of four.
pub(super) fn in_16(call: Call) -> Row {
    let [_, (what, record)] = several();
    row(what, &record, call)
}

fn several() -> [(&'static str, Vec<u8>); 2] {
    [("64 lots in two", 2), ("64 lots in 16", 16)].map(|(what, count)| (what, in_components(count)))
}
