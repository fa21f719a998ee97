//! What is measured: calls, each on an empty, a half full and a full record, and on
//! records that ask more.

mod crashes;
mod draining;
mod moves;
mod reads;
mod records;
mod seats;
mod worst;

use compare::call::{Call, NAMES};
use compare::graph::SEATS;

pub use draining::DRAIN;
use records::settled;

pub struct Row {
    pub call: &'static str,
    pub record: String,
    /// The record before, and the calls that are made on it one after another.
    pub start: Vec<u8>,
    pub calls: Vec<Call>,
    /// How many calls of a settled record take about as long.
    pub length: usize,
}

impl Row {
    /// Whether it is the validation of a full settled record.
    pub fn is_full_validate(&self) -> bool {
        let [_, _, full] = EACH;
        self.record == full && self.calls == [Call::Validate]
    }
}

const HALF: usize = SEATS / 2;

pub fn all() -> Vec<Row> {
    let mut rows = Vec::new();
    let (empty, half, full) = (settled(0), settled(HALF), settled(SEATS));
    for call in CHANGES.iter().chain(&READS) {
        call(&mut rows, [&empty, &half, &full]);
    }
    worst::with_all_links(&mut rows);
    worst::with_all_messages(&mut rows);
    rows.extend(draining::draining());
    rows
}

/// The rows of a call, or all.
pub fn of(call: Option<&str>) -> Vec<Row> {
    let mut rows = all();
    rows.retain(|row| call.is_none_or(|name| name == row.call));
    let named = call.unwrap_or_default();
    assert!(!rows.is_empty(), "no row has the call {named}");
    rows
}

type Rows = fn(&mut Vec<Row>, [&[u8]; 3]);

const CHANGES: [Rows; 11] = [
    seats::open,
    seats::join,
    seats::reserve,
    seats::confirm,
    seats::give_back,
    seats::leave,
    moves::deliver,
    moves::bundle,
    moves::turn,
    crashes::crash,
    crashes::merge,
];
const READS: [Rows; 8] = [
    reads::find,
    reads::check,
    reads::read_lot,
    reads::read_link,
    reads::read_message,
    reads::read_counts,
    reads::validate,
    reads::next_message,
];

/// A row of one call. What refuses it is found out by making it.
fn row(what: &str, start: &[u8], call: Call) -> Row {
    let refusal = call.on_bytes(&mut start.to_vec()).refusal;
    let refused = match refusal {
        0 => String::new(),
        refusal => format!(", refused: {refusal}"),
    };
    Row {
        call: NAMES[call.index()],
        record: format!("{what}{refused}"),
        start: start.to_vec(),
        calls: vec![call],
        length: 1,
    }
}

const EACH: [&str; 3] = ["empty", "32 lots", "64 lots"];

fn on_each(rows: &mut Vec<Row>, records: [&[u8]; 3], call: Call) {
    for (what, record) in EACH.into_iter().zip(records) {
        rows.push(row(what, record, call));
    }
}
