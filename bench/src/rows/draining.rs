//! 64 lots join, and all their messages are delivered.

use super::records::{joins, settled};
use super::worst::FEW;
use super::Row;
use compare::call::Call;
use compare::graph::SEATS;
use compare::model::Model;

/// The call of the rows that seat 64 lots and deliver all their messages.
pub const DRAIN: &str = "drain";

/// 64 joins, then the smallest message until none is left: by single deliveries,
/// which come first, and by bundles.
pub(super) fn draining() -> [Row; 3] {
    let by_bundles = |limit| {
        move |model: &mut Model| {
            model.bundle(limit);
            Call::Bundle { limit }
        }
    };
    let singly = drain(|model| {
        let smallest = *model.pending().first().expect("a message is pending");
        model.deliver(smallest).expect("the message is pending");
        Call::Deliver(smallest)
    });
    let deliveries = singly.len() - SEATS;
    let row = |how, calls: Vec<Call>| Row {
        call: DRAIN,
        record: format!("64 joins, {how}"),
        start: settled(0),
        length: calls.len(),
        calls,
    };
    [
        row(format!("{deliveries} deliveries"), singly),
        row(format!("bundles of {FEW}"), drain(by_bundles(FEW))),
        row(String::from("one bundle"), drain(by_bundles(u16::MAX))),
    ]
}

/// The joins, and the calls that `next` makes until nothing is pending.
fn drain(mut next: impl FnMut(&mut Model) -> Call) -> Vec<Call> {
    let (mut model, mut calls) = (Model::open(), joins());
    for join in &calls {
        join.on_model(&mut model);
    }
    while !model.pending().is_empty() {
        calls.push(next(&mut model));
    }
    calls
}
