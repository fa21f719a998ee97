//! The calls on lent bytes agree with the model: answers, values and every
//! byte, on the records of scripts and lists and on records that no calls lead to.

use crate::call::{Answer, Call, NAMES};
use crate::graph::SEATS;
use crate::inputs::{self, Style};
use crate::lent::{self, from_bytes, to_bytes};
use crate::list;
use crate::model::{Model, Refusal, NO_CONTACT};
use crate::random::Random;
use crate::reserved::Unsound;
use crate::scan::Scan;
use crate::script::{self, Numbers, Pools, Vectors};
use crate::text::{self, Command};
use crate::unsettled::Unsettled;
use std::collections::BTreeMap;

/// Makes a call on both and compares; the answer.
fn both(call: Call, model: &mut Model, bytes: &mut [u8]) -> Answer {
    let before = bytes.to_vec();
    let answer = call.on_bytes(bytes);
    assert_eq!(answer, call.on_model(model), "{call:?}");
    assert!(to_bytes(model) == bytes, "{call:?}");
    if answer.refusal != 0 || !call.changes_bytes() {
        assert!(before == bytes, "{call:?}");
    }
    answer
}

/// The calls that a line of a script makes.
fn calls(command: Command, model: &Model) -> Vec<Call> {
    match command {
        Command::Print => vec![Call::Check, Call::ReadCounts],
        Command::Settle => {
            let mut settling = model.clone();
            let mut calls = Vec::new();
            while let Some(&message) = settling.pending().first() {
                settling.deliver(message).unwrap();
                calls.push(Call::Deliver(message));
            }
            calls
        }
        _ => Vec::from_iter(command.call()),
    }
}

/// Bundles of limits that go up, the last two of them the largest.
fn settle_by_bundles(mut model: Model, mut bytes: Vec<u8>) {
    for limit in [0, 1, 2, 3, 10, 100, 1_000, u16::MAX, u16::MAX] {
        both(Call::Bundle { limit }, &mut model, &mut bytes);
    }
    assert!(model.pending().is_empty());
}

#[test]
fn on_scripts() {
    let mut random = Random::new(1);
    for index in 0..40 {
        let mut model = Model::open();
        let mut bytes = to_bytes(&model);
        let pools = inputs::pools(&mut random);
        for line in text::lines(&script::generate(3, index, 60).concat()) {
            let command = text::parse(line);
            if command == Some(Command::Settle) {
                settle_by_bundles(model.clone(), bytes.clone());
            }
            for call in command.map_or(Vec::new(), |command| calls(command, &model)) {
                both(call, &mut model, &mut bytes);
            }
            let call = inputs::call(&bytes, Style::Asking, &pools, &mut random);
            both(call, &mut model.clone(), &mut bytes.clone());
        }
    }
}

/// With reservations, which no script has.
#[test]
fn on_lists() {
    let mut accepted = [0; NAMES.len()];
    for index in 0..90 {
        let mut model = Model::open();
        let mut bytes = to_bytes(&model);
        for call in list::generate(4, index, 100) {
            let answer = both(call, &mut model, &mut bytes);
            accepted[call.index()] += usize::from(answer.refusal == 0);
        }
    }
    assert!(accepted.iter().all(|&count| count > 5), "{accepted:?}");
}

#[test]
fn on_records_that_no_calls_lead_to() {
    let mut random = Random::new(2);
    let (mut checks, mut accepted) = ([0; 2], [0; NAMES.len()]);
    let mut ways = BTreeMap::new();
    for _ in 0..1_500 {
        let pools = inputs::pools(&mut random);
        let mut bytes = inputs::sound_record(&pools, &mut random);
        let mut model = from_bytes(&bytes).expect("the record is sound");
        let style = random.pick(&Style::ALL);
        let check = both(Call::Check, &mut model, &mut bytes).values[0];
        checks[check as usize] += 1;
        for _ in 0..10 {
            let call = inputs::call(&bytes, style, &pools, &mut random);
            let way = Unsettled::of_bytes(&bytes);
            let answer = both(call, &mut model, &mut bytes);
            accepted[call.index()] += usize::from(answer.refusal == 0);
            if let Call::Find { seat, .. } = call {
                let unsettled = way.map(|_| Refusal::Unsettled);
                let refusal = model.link(seat, 0, 0).err().or(unsettled);
                assert_eq!(answer.refusal, refusal.map_or(0, Refusal::number));
                *ways.entry((answer.refusal, way)).or_insert(0) += 1;
            }
        }
    }
    assert!(checks.iter().all(|&count| count > 300), "{checks:?}");
    assert!(accepted.iter().all(|&count| count > 5), "{accepted:?}");
    for way in Unsettled::ALL.map(Some) {
        assert!(ways.get(&(13, way)) > Some(&10), "{ways:?}");
    }
}

/// Searches from each lot also give what numbers, vectors and states do, with
/// leaving lots passed or not, a holder or none, and walks that end above or not.
#[test]
fn searches_of_settled_records() {
    let mut random = Random::new(7);
    let mut ways = BTreeMap::new();
    for _ in 0..500 {
        let pools = inputs::pools(&mut random);
        let mut bytes = inputs::settled_record(&pools, &mut random);
        let mut model = from_bytes(&bytes).expect("the record is sound");
        let seats: Vec<u8> = model.seated().map(|(seat, _)| seat).collect();
        for seat in seats {
            let next = random.below(2) as u64;
            let number = random.pick(&pools.numbers).saturating_sub(next);
            both(Call::Find { seat, number }, &mut model, &mut bytes);
            let scan = Scan::of_model(&model, seat, number).expect("the lot is seated");
            assert_eq!(model.find(seat, number), Ok(scan.found()));
            let way = (scan.leavers.min(2), scan.holder.is_some(), scan.ends_above);
            *ways.entry(way).or_insert(0) += 1;
        }
    }
    // All but a walk that ends at a staying lot which is no holder.
    assert_eq!(ways.len(), 3 * 2 * 2 - 1, "{ways:?}");
    assert!(ways.values().all(|&count| count > 30), "{ways:?}");
}

/// A full record, then half of it cleared, each settled by bundles of any size.
#[test]
fn bundles_on_full_records() {
    let mut random = Random::new(5);
    for vectors in [
        Vectors::Any,
        Vectors::Few,
        Vectors::Equal,
        Vectors::LastBits,
        Vectors::OneBit,
    ] {
        let pools = Pools::new(SEATS, Numbers::Spread, vectors, &mut random);
        let mut model = Model::open();
        let mut bytes = to_bytes(&model);
        for (lots, &seat) in pools.seats.iter().enumerate() {
            let contact = match lots {
                0 => NO_CONTACT,
                _ => random.pick(&pools.seats[..lots]),
            };
            let join = Call::Join {
                seat,
                number: pools.numbers[lots],
                vector: random.pick(&pools.vectors),
                contact,
            };
            assert_eq!(both(join, &mut model, &mut bytes).refusal, 0);
        }
        settle_by_any_bundles(&mut model, &mut bytes, &mut random);
        for &seat in &pools.seats[SEATS / 2..] {
            both(Call::Leave { seat }, &mut model, &mut bytes);
        }
        both(Call::Turn, &mut model, &mut bytes);
        settle_by_any_bundles(&mut model, &mut bytes, &mut random);
        assert!(model.check());
    }
}

fn settle_by_any_bundles(model: &mut Model, bytes: &mut [u8], random: &mut Random) {
    assert!(!model.pending().is_empty());
    while !model.pending().is_empty() {
        let limit = random.pick(&[0, 1, 2, 3, 10, 64, 500]);
        both(Call::Bundle { limit }, model, bytes);
    }
}

#[test]
fn soundness_of_damaged_bytes() {
    let mut random = Random::new(3);
    let (mut sound, mut ways) = ([0; 2], BTreeMap::new());
    for _ in 0..6_000 {
        let pools = inputs::pools(&mut random);
        let mut bytes = inputs::sound_record(&pools, &mut random);
        inputs::damage(&mut bytes, &mut random);
        let refusal = lent::validate(&bytes).err();
        let expected = match from_bytes(&bytes) {
            Some(_) => None,
            None if bytes.len() != lent::SIZE => Some(Refusal::WrongSize),
            None => Some(Refusal::Unsound),
        };
        assert_eq!(refusal, expected);
        sound[usize::from(expected.is_none())] += 1;
        if expected == Some(Refusal::Unsound) {
            *ways.entry(Unsound::of_bytes(&bytes)).or_insert(0) += 1;
        }
    }
    assert!(sound.iter().all(|&count| count > 500), "{sound:?}");
    for way in Unsound::ALL.map(Some) {
        assert!(ways.get(&way) > Some(&10), "{ways:?}");
    }
}

/// A sound record in which so many lots are reserved.
fn record_with_reserved(reserved: usize, pools: &Pools, random: &mut Random) -> Vec<u8> {
    loop {
        let bytes = inputs::sound_record(pools, random);
        let model = from_bytes(&bytes).expect("the record is sound");
        if model.taken().count() == model.seated().count() + reserved {
            return bytes;
        }
    }
}

/// Every bit of a small record is changed in turn.
#[test]
fn soundness_of_each_bit() {
    let mut random = Random::new(4);
    let pools = Pools::new(5, Numbers::Close, Vectors::Few, &mut random);
    for reserved in 0..3 {
        let mut bytes = record_with_reserved(reserved, &pools, &mut random);
        for place in (0..bytes.len() * 8).filter(|place| place % 37 == 0 || *place < 15_000) {
            bytes[place / 8] ^= 1 << (place % 8);
            let sound = lent::validate(&bytes).is_ok();
            assert_eq!(sound, from_bytes(&bytes).is_some(), "bit {place}");
            bytes[place / 8] ^= 1 << (place % 8);
        }
    }
}
