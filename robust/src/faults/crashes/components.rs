//! Checks and searches of several components.

use super::*;
use crate::judge::Difference;
use compare::graph::{self, components, links_within};
use compare::lent::from_bytes;
use compare::model::Model;
use compare::unsettled::Unsettled;

wrong_on_bytes! {
    a_check_wants_one_list shows Difference::Answer { .. } => |before, _, call, answer| {
        says(before, call, answer, |model, _| model.member_links() == graph::links(&model.members()))
    };
    a_check_passes_several shows Difference::Answer { .. } => |before, _, call, answer| {
        says(before, call, answer, |model, right| right || parts(model).len() > 1)
    };
    a_check_asks_the_first_alone shows Difference::Answer { .. } => |before, _, call, answer| {
        says(before, call, answer, |model, _| {
            let (members, held) = (model.members(), model.member_links());
            let components = components(&members, &held);
            let graphs = links_within(&members, &components);
            let lots = components.iter().zip(graphs.iter().zip(&held));
            let mut first = lots.filter(|(component, _)| **component == components[0]);
            first.all(|(_, (graph, held))| graph == held)
        })
    };
    // A MEET that is pending would be a link.
    a_check_waits_for_newcomers shows Difference::Answer { .. } => |before, _, call, answer| {
        says(before, call, answer, |model, right| {
            right && (model.pending().is_empty() || parts(model).len() < 2)
        })
    };
    several_components_are_unsettled shows Difference::Answer { .. } => |before, _, call, answer| {
        match (call, answer.refusal) {
            (Call::Find { .. }, 0) if parts(&model(before)).len() > 1 => Answer::refused(13),
            _ => answer,
        }
    };
    a_search_does_not_ask_for_one_of_several shows Difference::Answer { .. } =>
        |before, _, call, answer| match (call, answer.refusal) {
            (Call::Find { .. }, 13) if Unsettled::of_bytes(before) == Some(Unsettled::OneOfSeveral) => {
                let mut right = before.to_vec();
                crate::faults::put_right(&mut right, 0..LEVELS);
                call.on_bytes(&mut right)
            }
            _ => answer,
        };
    a_search_seeks_among_all shows Difference::Answer { .. } => |before, _, call, mut answer| {
        if let (Call::Find { number: scanned, .. }, 0) = (call, answer.refusal) {
            let staying = seats_in(before, STAYING).filter(|&seat| number(before, seat) <= scanned);
            let nearest = staying.max_by_key(|&seat| number(before, seat));
            answer.values[0] = nearest.unwrap_or(NO_LINK).into();
        }
        answer
    };
}

fn model(record: &[u8]) -> Model {
    from_bytes(record).expect("the record is sound")
}

/// What a check says that is asked of the model and of the right answer.
fn says(before: &[u8], call: Call, mut answer: Answer, says: fn(&Model, bool) -> bool) -> Answer {
    if call == Call::Check {
        answer.values[0] = says(&model(before), answer.values[0] == 1).into();
    }
    answer
}

/// The components of the members by links: the smallest seat of each.
fn parts(model: &Model) -> Vec<u8> {
    let mut parts = components(&model.members(), &model.member_links());
    parts.sort_unstable();
    parts.dedup();
    parts
}

/// The seats of a lot's component.
pub fn of(record: &[u8], seat: u8) -> u64 {
    let model = model(record);
    let members = model.members();
    let components = components(&members, &model.member_links());
    let lots = || members.iter().map(|member| member.seat).zip(&components);
    let component = lots().find(|(lot, _)| *lot == seat).map(|(_, name)| name);
    let same = lots().filter(|(_, name)| Some(*name) == component);
    same.fold(0, |set, (lot, _)| set | 1 << lot)
}
