//! The records that calls are made on.

use super::{row, Row};
use compare::call::Call;
use compare::graph::{self, Member, LEVELS, SEATS, SIDES};
use compare::lent::{self, place, SIZE};
use compare::model::{Lot, Lots, Model, Phase, State};
use compare::random::Random;
use compare::script::REMAINDERS;
use std::collections::BTreeSet;

pub const NO_CONTACT: u8 = 255;
/// The number and the vector of a lot that is new to the records.
pub const NEW: (u64, u8) = (u64::MAX / 3, 0b1010_0101);

/// Lots with any numbers and vectors, the same ones in every run.
pub fn lots(count: usize) -> Vec<Member> {
    let mut random = Random::new(7);
    let lot = |seat| Member {
        seat,
        number: random.next(),
        vector: random.byte(),
    };
    (0..count as u8).map(lot).collect()
}

/// The same lots with numbers that all leave remainder 0 in the soundness test: the
/// most comparisons of numbers that it can come to.
pub fn lots_of_one_remainder(count: usize) -> Vec<Member> {
    let mut lots = lots(count);
    for lot in &mut lots {
        lot.number = of_remainder_0(lot.number);
    }
    lots
}

/// A number close by.
pub fn of_remainder_0(number: u64) -> u64 {
    number / REMAINDERS * REMAINDERS
}

/// 64 lots with one vector, settled: each list of every level has all of them.
pub fn all_links() -> Vec<u8> {
    let (mut lots, (_, vector)) = (lots(SEATS), NEW);
    for lot in &mut lots {
        lot.vector = vector;
    }
    settled_of(&lots)
}

/// A settled record with so many lots.
pub fn settled(count: usize) -> Vec<u8> {
    settled_of(&lots(count))
}

/// Each link is as in the graph of the members.
pub fn settled_of(members: &[Member]) -> Vec<u8> {
    settled_in(members, &vec![0; members.len()])
}

/// 64 lots, settled, dealt out to so many components.
pub fn in_components(count: usize) -> Vec<u8> {
    let components: Vec<usize> = (0..SEATS).map(|seat| seat % count).collect();
    settled_in(&lots(SEATS), &components)
}

/// Each link is as in the graph of the members within its component.
fn settled_in(members: &[Member], components: &[usize]) -> Vec<u8> {
    let mut lots: Lots = [const { None }; SEATS];
    let links = graph::links_within(members, components);
    for (member, links) in members.iter().zip(links) {
        lots[usize::from(member.seat)] = Some(Lot {
            number: member.number,
            vector: member.vector,
            state: State::Staying,
            links,
        });
    }
    let model = Model::from_parts(lots, Phase::Open, BTreeSet::new());
    let record = lent::to_bytes(&model.expect("the graph is sound"));
    assert_eq!(record.len(), SIZE);
    assert!(LEVELS * SIDES.len() == 18 && lent::check(&record) == Ok(true));
    record
}

/// 64 lots join by the first.
pub fn joins() -> Vec<Call> {
    let join = |lot: Member| Call::Join {
        seat: lot.seat,
        number: lot.number,
        vector: lot.vector,
        contact: if lot.seat == 0 { NO_CONTACT } else { 0 },
    };
    lots(SEATS).into_iter().map(join).collect()
}

/// So many lots, and the message by which the last of them joins at a contact.
pub fn on_one_message(lots: usize, contact: u8, call: Call) -> Row {
    let (mut start, seat) = (settled(lots - 1), lots as u8 - 1);
    let (number, vector) = NEW;
    lent::join(&mut start, seat, number, vector, contact).expect("the seat is free");
    row(&format!("{lots} lots, one message"), &start, call)
}

/// The settled record of so many lots when every fourth of them leaves.
pub fn a_quarter_leaves(settled: &[u8], lots: usize) -> Vec<u8> {
    let mut leaving = settled.to_vec();
    for seat in (0..lots as u8).step_by(4) {
        lent::leave(&mut leaving, seat).expect("the lot stays");
    }
    leaving
}

/// The same after the turn, with what it has sent.
pub fn a_quarter_clears(settled: &[u8], lots: usize) -> Vec<u8> {
    let mut clearing = a_quarter_leaves(settled, lots);
    lent::turn(&mut clearing).expect("nothing is pending");
    clearing
}

/// The same when all has been delivered.
pub fn a_quarter_cleared(settled: &[u8], lots: usize) -> Vec<u8> {
    let mut model = model_of(&a_quarter_clears(settled, lots));
    model.settle();
    lent::to_bytes(&model)
}

/// The record with every message pending that its lots and its phase allow, and how
/// many these are.
pub fn filled(record: &[u8]) -> (Vec<u8>, usize) {
    let (model, mut filled) = (model_of(record), record.to_vec());
    let places = lent::messages().iter().enumerate();
    let fitting = places.filter(|(_, message)| model.message_is_sound(**message));
    let mut count = 0;
    for (place, _) in fitting {
        filled[place::PENDING_AT + place / 8] |= 1 << (place % 8);
        count += 1;
    }
    assert_eq!(lent::validate(&filled), Ok(()));
    (filled, count)
}

fn model_of(record: &[u8]) -> Model {
    lent::from_bytes(record).expect("the record is sound")
}
