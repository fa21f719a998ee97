//! What is left once all is delivered, in any order: each component, by links and
//! pending MEETs before, is the skip graph of its own lots (document 02, #106 and #107).

use super::{holds, MOST_DELIVERIES};
use crate::graph::{self, components, links_within, Links, Member};
use crate::model::{Kind, Message, Model};
use crate::random::Random;

/// Up to so many lots, what is pending is delivered in other orders too, and components
/// are asked for after each delivery, which may take long.
const FEW: usize = 12;

/// Components by links and pending MEETs of all levels: of each seated lot, ascending
/// by seat, the smallest seat of its own.
pub fn joined(model: &Model) -> Vec<u8> {
    let (members, links): (Vec<Member>, Vec<Links>) = model
        .seated()
        .map(|(seat, lot)| {
            let (number, vector) = (lot.number, lot.vector);
            let member = Member {
                seat,
                number,
                vector,
            };
            (member, lot.links)
        })
        .unzip();
    let meetings = model.pending().iter();
    let meetings = meetings.filter(|message| message.kind() == Some(Kind::Meet));
    graph::joined(
        &members,
        &links,
        meetings.map(|message| (message.to, message.about)),
    )
}

/// The record in phase open once it is drained by deliveries alone: the smallest first,
/// and in a small record in other orders too, which all end the same.
pub fn check(model: &Model, seed: u64) -> Result<Model, &'static str> {
    let drained = smallest_first(model)?;
    let (members, links) = (drained.members(), drained.member_links());
    let left = joined(model);
    holds(
        components(&members, &links) == left,
        "once drained, components are not those that were left",
    )?;
    holds(
        links == links_within(&members, &left),
        "once drained, a component is no skip graph",
    )?;
    if model.counts().lots > FEW {
        return Ok(drained);
    }
    let mut random = Random::new(seed);
    let largest_first = in_order(model, |model| model.pending().last().copied())?;
    let in_any_order = in_order(model, |model| {
        let pending = model.pending();
        let place = random.below(pending.len().max(1));
        pending.iter().nth(place).copied()
    })?;
    holds(
        largest_first == drained && in_any_order == drained,
        "drained in another order, a record is another",
    )?;
    Ok(drained)
}

pub fn smallest_first(model: &Model) -> Result<Model, &'static str> {
    in_order(model, |model| model.pending().first().copied())
}

fn in_order(
    model: &Model,
    mut next: impl FnMut(&Model) -> Option<Message>,
) -> Result<Model, &'static str> {
    let (mut drained, left) = (model.clone(), joined(model));
    let are_few = model.counts().lots <= FEW;
    for _ in 0..MOST_DELIVERIES {
        let Some(message) = next(&drained) else {
            break;
        };
        let delivered = drained.deliver(message);
        delivered.map_err(|_| "a pending message was not delivered")?;
        holds(
            !are_few || joined(&drained) == left,
            "a delivery changes components by links and MEETs",
        )?;
    }
    holds(drained.pending().is_empty(), "deliveries do not end")?;
    Ok(drained)
}
