//! Bundles on the model held against document 02, #101, and against single
//! deliveries.

use super::{holds, Check};
use crate::call::Answer;
use crate::model::Model;

/// Limits of two bundles, one after the other, for a line of a script.
pub fn limits(line: usize) -> (u16, u16) {
    const LIMITS: [(u16, u16); 8] = [
        (0, 0),
        (1, 1),
        (0, 2),
        (2, 1),
        (3, 5),
        (0, 7),
        (1, 12),
        (20, 0),
    ];
    LIMITS[line % LIMITS.len()]
}

/// A bundle of `first`, then one of `second`: each is its deliveries, and both
/// together are one bundle.
pub fn check(model: &Model, (first, second): (u16, u16)) -> Check {
    let mut bundled = model.clone();
    let one = is_its_deliveries(&mut bundled, first)?;
    let other = is_its_deliveries(&mut bundled, second)?;
    let mut whole = model.clone();
    let both = whole.bundle(first + second);
    holds(
        both == one + other && whole == bundled,
        "a bundle is not one of a part of its limit and then one of the rest",
    )
}

/// A bundle of a list of calls: its deliveries and its count.
pub fn check_call(before: &Model, limit: u16, answer: Answer, after: &Model) -> Check {
    let mut bundled = before.clone();
    let delivered = is_its_deliveries(&mut bundled, limit)?;
    let [counted, ..] = answer.values;
    holds(
        counted == u64::from(delivered) && *after == bundled,
        "a bundle is not the same again",
    )
}

/// Makes a bundle; the count.
fn is_its_deliveries(model: &mut Model, limit: u16) -> Result<u16, &'static str> {
    let (singly, deliveries) = deliver_singly(model, limit);
    let delivered = model.bundle(limit);
    holds(delivered <= limit, "a bundle counts more than its limit")?;
    holds(
        delivered == limit || model.pending().is_empty(),
        "a bundle stopped before its limit with messages left",
    )?;
    holds(
        *model == singly,
        "a bundle is not deliveries of the smallest",
    )?;
    holds(
        delivered == deliveries,
        "a bundle does not count its deliveries",
    )?;
    Ok(delivered)
}

/// Single deliveries of the smallest, at most so many: what is left, and how
/// many were accepted.
fn deliver_singly(model: &Model, most: u16) -> (Model, u16) {
    let (mut model, mut deliveries) = (model.clone(), 0);
    while let Some(&smallest) = model.pending().iter().min() {
        if deliveries == most || model.deliver(smallest).is_err() {
            break;
        }
        deliveries += 1;
    }
    (model, deliveries)
}

/// Half of the deliveries that settle a record in one bundle, then the largest
/// bundles, as many as it takes: together they settle it.
pub fn check_settling(model: &Model, settled: &Model, deliveries: u64) -> Check {
    let largest = u64::from(u16::MAX);
    let mut bundled = model.clone();
    let half = (deliveries / 2).min(largest) as u16;
    let mut delivered = u64::from(bundled.bundle(half));
    for _ in 0..=deliveries / largest {
        delivered += u64::from(bundled.bundle(u16::MAX));
    }
    holds(
        delivered == deliveries && bundled == *settled,
        "bundles do not settle as single deliveries do",
    )
}
