//! Two halves find each other (#107): the bytes of a merge, merges of records that no
//! calls lead to, and all of a small record. What each call answers stands in
//! `list::fixed`.

use super::components::{settle, six_lots};
use super::{q, q_without, LEFT, RIGHT};
use crate::call::{Answer, Call};
use crate::lent::place::*;
use crate::lent::{from_bytes, place_of, to_bytes};
use crate::model::{Message, Model};
use crate::selfcheck;

fn merge(first: u8, second: u8) -> Call {
    Call::Merge { first, second }
}

/// One bit, and that only the first time.
#[test]
fn bytes_after_a_merge() {
    let mut bytes = to_bytes(&q());
    let mut expected = bytes.clone();
    let place = place_of(Message::meet(2, 0, 0)).unwrap();
    expected[PENDING_AT + place / 8] = 1 << (place % 8);
    for _ in 0..2 {
        assert_eq!(merge(2, 0).on_bytes(&mut bytes).refusal, 0);
        assert_eq!(bytes, expected);
    }
}

/// Links that one end alone holds say nothing of what is sent, and nothing is set.
#[test]
fn a_merge_reads_no_link() {
    for gone in [&[][..], &[(0, 0, RIGHT)], &[(1, 0, LEFT)]] {
        let mut bytes = q_without(gone);
        let mut model = from_bytes(&bytes).unwrap();
        let lots = model.clone();
        assert_eq!(merge(0, 1).on_model(&mut model).refusal, 0);
        assert_eq!(merge(0, 1).on_bytes(&mut bytes).refusal, 0);
        assert_eq!(to_bytes(&model), bytes);
        assert!(model.taken().eq(lots.taken()));
        assert_eq!(*model.pending(), [Message::meet(0, 1, 0)].into());
    }
}

#[test]
fn a_merge_meets_1_and_2_first() {
    let mut bytes = to_bytes(&q());
    assert_eq!(merge(64, 64).on_bytes(&mut bytes), Answer::refused(3));
    bytes[PHASE_AT] = 2;
    assert_eq!(merge(64, 64).on_bytes(&mut bytes), Answer::refused(2));
    bytes.push(0);
    assert_eq!(merge(64, 64).on_bytes(&mut bytes), Answer::refused(1));
}

/// All records to which a crash of six lots leads, at rest and before anything is
/// delivered; each pair of seats is merged: what the self check asks of a merge holds of
/// all of them.
#[test]
fn every_merge_of_a_small_record() {
    let six = six_lots();
    let seats = 0..6;
    for gone in 0..1u64 << 6 {
        for (first, second) in seats
            .clone()
            .flat_map(|one| seats.clone().map(move |other| (one, other)))
        {
            for between in [&[][..], &[settle()]] {
                let crash = [Call::Crash { seats: gone }];
                let end = [merge(first, second), settle(), Call::Check];
                let list = [&six, &crash[..], between, &end].concat();
                assert_eq!(
                    selfcheck::run_list(&list),
                    Ok(()),
                    "{gone} {first} {second}"
                );
            }
        }
    }
}

/// Of three components of two lots each all pairs of merges of two seats, one after the
/// other before anything is delivered.
#[test]
fn every_two_merges_of_three_components() {
    let mut lots = Vec::new();
    let mut model = Model::open();
    for seat in 0..8 {
        let contact = if seat == 0 { 255 } else { 0 };
        let number = 10 * u64::from(seat);
        lots.push(Call::Join {
            seat,
            number,
            vector: 0,
            contact,
        });
    }
    lots.extend([settle(), Call::Crash { seats: 0b100 }, settle()]);
    lots.extend([Call::Crash { seats: 0b10_0000 }, settle()]);
    lots.iter()
        .for_each(|call| assert_eq!(call.on_model(&mut model).refusal, 0));
    let seats: Vec<u8> = model.seated().map(|(seat, _)| seat).collect();
    let pairs = || {
        seats
            .iter()
            .flat_map(|&one| seats.iter().map(move |&other| (one, other)))
    };
    let pairs = || pairs().filter(|(one, other)| one != other);
    for (one, other) in pairs().filter(|(one, other)| one < other) {
        for (first, second) in pairs() {
            let merges = [
                merge(one, other),
                merge(first, second),
                settle(),
                Call::Check,
            ];
            let list = [&lots[..], &merges].concat();
            assert_eq!(
                selfcheck::run_list(&list),
                Ok(()),
                "{one} {other} {first} {second}"
            );
        }
    }
}
