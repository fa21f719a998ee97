//! Records that ask the most of the library: every link is set, and as many messages
//! are pending as a record can hold.

use super::crashes::OF_ONE;
use super::moves::turns_of_a_quarter;
use super::reads::{longest_search, FIRST};
use super::records::{a_quarter_clears, all_links, filled, settled};
use super::{row, Row};
use compare::call::Call;
use compare::graph::SEATS;
use compare::lent;

/// Each lot but the first and the last has both links at every level.
pub(super) fn with_all_links(rows: &mut Vec<Row>) {
    let (what, record) = ("64 lots, all links", all_links());
    rows.push(row(what, &record, Call::Leave { seat: 7 }));
    turns_of_a_quarter(rows, what, &record, SEATS);
    rows.push(row(&format!("{what}, one"), &record, OF_ONE));
    rows.push(longest_search(what, &record));
    rows.push(row(what, &record, Call::Check));
    rows.push(row(what, &record, Call::Validate));
}

/// Every message is pending that fits: with the vectors of the other rows; with one
/// vector, so that all share all bits; and with one vector while a quarter leaves.
pub(super) fn with_all_messages(rows: &mut Vec<Row>) {
    let alike = all_links();
    let clearing = a_quarter_clears(&alike, SEATS);
    for (how, record) in [("", settled(SEATS)), ("", alike), ("clearing, ", clearing)] {
        let (filled, count) = filled(&record);
        let what = format!("64 lots, {how}{count} messages");
        let smallest = lent::next_message(&filled, FIRST).expect("the record is sound");
        let smallest = smallest.expect("a message is pending");
        let calls = [
            Call::Deliver(smallest),
            Call::Bundle { limit: FEW },
            Call::ReadCounts,
            Call::Validate,
            Call::NextMessage(FIRST),
        ];
        rows.extend(calls.map(|call| Row {
            length: count.div_ceil(MESSAGES),
            ..row(&what, &filled, call)
        }));
    }
}

/// What a scale may do while it is awake.
pub(super) const FEW: u16 = 64;

/// So many messages are tested in about the time of a settled record.
const MESSAGES: usize = 512;
