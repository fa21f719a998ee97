//! The example and the cases (a) to (l) of document 01, and a few more that its
//! words and those of document 02 settle.

mod components;
mod merges;
mod reservations;

use crate::call::{Answer, Call, NO_VALUES};
use crate::graph::{first_bits, NO_LINKS, SEATS};
use crate::lent;
use crate::lent::place::{link_at, ENTRIES_AT, ENTRY, NO_LINK, PHASE_AT};
use crate::model::{shared_bits, Found, Lot, Lots, Message, Model, Phase, Refusal, State};
use crate::text;
use crate::unsettled::Unsettled;
use std::collections::BTreeSet;

const LEFT: u8 = 0;
const RIGHT: u8 = 1;

/// The three lots of the example, nothing delivered.
fn three_joined() -> Model {
    let mut model = Model::open();
    model.join(0, 100, 0, 255).unwrap();
    model.join(1, 200, 128, 0).unwrap();
    model.join(2, 300, 64, 0).unwrap();
    model
}

/// The settled record Q of the example.
fn q() -> Model {
    let mut model = three_joined();
    model.settle();
    model
}

fn find(start: u8, number: u64) -> (Option<u8>, u32) {
    let Found { holder, hops } = q().find(start, number).unwrap();
    (holder, hops)
}

/// A model with lots 100, 200 and 300 on seats 0 to 2 and one right link of
/// lot 100 at level 0, and a pending MEET to it.
fn lot_100_linked_to(link: u8, meet_about: u8) -> Model {
    let mut lots: Lots = [const { None }; SEATS];
    for (seat, number) in [100, 200, 300].into_iter().enumerate() {
        lots[seat] = Some(Lot {
            number,
            vector: 0,
            state: State::Staying,
            links: NO_LINKS,
        });
    }
    lots[0].as_mut().unwrap().links[0][usize::from(RIGHT)] = Some(link);
    let pending = BTreeSet::from([Message::meet(0, meet_about, 0)]);
    Model::from_parts(lots, Phase::Open, pending).unwrap()
}

#[test]
fn example() {
    let input = b"J 0 100 0 255\nJ 1 200 128 0\nJ 2 300 64 0\nA\nP\nF 0 250";
    let output = b"ok\nok\nok\nok\nlots 3 phase open pending 0\n\
        0 -: 100 200 300\n1 0: 100 300\nholder 1 hops 1\n";
    assert_eq!(text::run(input), output);
}

#[test]
fn case_a_shared_bits() {
    assert_eq!(shared_bits(0, 128), 0);
    assert_eq!(shared_bits(0, 64), 1);
    assert_eq!(shared_bits(64, 64), 8);
}

/// The model counts them by leading zeros, the graph compares first bits.
#[test]
fn shared_bits_are_equal_first_bits() {
    for pair in 0..=u16::MAX {
        let [one, other] = pair.to_be_bytes();
        for level in 0..=8 {
            let same = first_bits(one, level) == first_bits(other, level);
            assert_eq!(same, shared_bits(one, other) >= level as u32);
        }
    }
}

#[test]
fn case_b_below_all() {
    assert_eq!(find(0, 99), (None, 0));
}

#[test]
fn case_c_equal_by_level_1() {
    assert_eq!(find(0, 300), (Some(2), 1));
}

#[test]
fn case_d_from_above() {
    assert_eq!(find(2, 250), (Some(1), 1));
}

#[test]
fn case_e_leftward_equal() {
    assert_eq!(find(2, 100), (Some(0), 1));
}

#[test]
fn case_f_number_in_use() {
    assert_eq!(q().join(3, 200, 0, 0), Err(Refusal::NumberInUse));
}

#[test]
fn case_g_no_such_seat() {
    assert_eq!(q().join(64, 400, 0, 0), Err(Refusal::NoSuchSeat));
}

#[test]
fn case_h_no_contact() {
    assert_eq!(Model::open().join(0, 1, 0, 0), Err(Refusal::NoContact));
}

#[test]
fn case_i_nearer_lot_takes_the_link() {
    let mut model = lot_100_linked_to(2, 1);
    model.deliver(Message::meet(0, 1, 0)).unwrap();
    assert_eq!(model.link(0, 0, RIGHT), Ok(Some(1)));
    assert_eq!(model.link(0, 0, LEFT), Ok(None));
    let sent = [
        Message::meet(1, 0, 0),
        Message::meet(1, 2, 0),
        Message::probe(1, 0, 0),
    ];
    assert_eq!(*model.pending(), BTreeSet::from(sent));
}

#[test]
fn case_j_farther_lot_is_passed_on() {
    let mut model = lot_100_linked_to(1, 2);
    model.deliver(Message::meet(0, 2, 0)).unwrap();
    assert_eq!(model.link(0, 0, RIGHT), Ok(Some(1)));
    assert_eq!(*model.pending(), BTreeSet::from([Message::meet(1, 2, 0)]));
}

#[test]
fn case_k_the_middle_lot_leaves() {
    let input = b"J 0 100 0 255\nJ 1 200 128 0\nJ 2 300 64 0\nA\nL 1\nF 0 250\nT\nA\nP\nT\nP\n";
    let output = b"ok\nok\nok\nok\nok\nholder 0 hops 2\nok\nok\n\
        lots 3 phase clearing pending 0\n0 -: 100 300\n1 0: 100 300\nok\n\
        lots 2 phase open pending 0\n0 -: 100 300\n1 0: 100 300\n";
    assert_eq!(text::run(input), output);
}

#[test]
fn case_l_a_sole_lot_leaves() {
    let mut model = Model::open();
    model.join(5, 7, 0, 255).unwrap();
    model.leave(5).unwrap();
    model.turn().unwrap();
    assert_eq!(model.phase(), Phase::Clearing);
    model.turn().unwrap();
    assert_eq!(model, Model::open());
}

#[test]
fn last_seat_and_ends_of_the_range() {
    let input = b"J 63 0 0 255\nJ 0 18446744073709551615 0 63\nA\nP\n\
        F 63 18446744073709551615\nF 0 0\nF 0 18446744073709551614\n";
    let output = String::from_utf8(text::run(input)).unwrap();
    let lists: String = (1..=8)
        .map(|level| format!("{level} {:0level$b}: 0 18446744073709551615\n", 0))
        .collect();
    let expected = format!(
        "ok\nok\nok\nlots 2 phase open pending 0\n0 -: 0 18446744073709551615\n{lists}\
        holder 0 hops 1\nholder 63 hops 1\nholder 63 hops 1\n"
    );
    assert_eq!(output, expected);
}

#[test]
fn the_first_row_that_applies_is_given() {
    let mut model = q();
    // Rows 3, 4, 5 and 6 apply, then 4, 5 and 6, then 5 and 6.
    assert_eq!(model.join(64, 200, 0, 9), Err(Refusal::NoSuchSeat));
    assert_eq!(model.join(3, 400, 0, 254), Err(Refusal::NoSuchSeat));
    assert_eq!(model.join(1, 200, 0, 9), Err(Refusal::SeatTaken));
    assert_eq!(model.join(3, 200, 0, 9), Err(Refusal::NumberInUse));
    assert_eq!(model.join(3, 400, 0, 3), Err(Refusal::NoContact));
    assert_eq!(model.join(3, 400, 0, 255), Err(Refusal::NoContact));
    model.leave(1).unwrap();
    assert_eq!(model.leave(1), Err(Refusal::AlreadyLeaving));
    model.turn().unwrap();
    assert_eq!(model.turn(), Err(Refusal::MessagesLeft));
    assert_eq!(model.join(1, 200, 0, 9), Err(Refusal::InClearing));
    assert_eq!(model.leave(9), Err(Refusal::InClearing));
    assert_eq!(model.leave(64), Err(Refusal::NoSuchSeat));
    assert_eq!(model.find(9, 0), Err(Refusal::EmptySeat));
    assert_eq!(model.find(64, 0), Err(Refusal::NoSuchSeat));
    assert_eq!(model.find(0, 0), Err(Refusal::Unsettled));
}

/// Messages are pending, then a leaver in phase open, for which no search waits,
/// then clearing with messages pending and without.
#[test]
fn a_search_waits_for_a_settled_record() {
    let input = b"J 0 100 0 255\nF 0 99\nJ 1 200 128 0\nF 0 250\nF 9 0\nF 64 0\nA\nF 0 250\n\
        L 1\nF 0 250\nF 1 250\nT\nF 0 250\nF 9 0\nA\nF 0 250\nF 9 0\nF 64 0\nT\nF 0 250\n";
    let output = b"ok\nnone hops 0\nok\nno 13\nno 8\nno 3\nok\nholder 1 hops 1\n\
        ok\nholder 0 hops 2\nholder 0 hops 1\nok\nno 13\nno 8\nok\nno 13\nno 8\nno 3\nok\nholder 0 hops 0\n";
    assert_eq!(text::run(input), output);
}

/// Also for messages that no link waits for.
#[test]
fn a_search_waits_for_the_last_message() {
    let (mut model, mut right) = (three_joined(), 0);
    while !model.pending().is_empty() {
        assert_eq!(model.find(0, 250), Err(Refusal::Unsettled));
        right += u32::from(model.check());
        model.bundle(1);
    }
    assert!(right > 0);
    assert!(model.find(0, 250).is_ok());
}

/// The bytes of Q with some links taken away.
fn q_without(links: &[(u8, usize, u8)]) -> Vec<u8> {
    let mut bytes = lent::to_bytes(&q());
    for &(seat, level, side) in links {
        let at = ENTRIES_AT + ENTRY * usize::from(seat) + link_at(level, side.into());
        assert_ne!(bytes[at], NO_LINK);
        bytes[at] = NO_LINK;
    }
    bytes
}

/// Nothing is pending in phase open, and the check says no.
#[test]
fn a_search_waits_for_the_check() {
    let level_0 = q_without(&[(1, 0, RIGHT)]);
    let level_1 = q_without(&[(0, 1, RIGHT), (2, 1, LEFT)]);
    // 200 alone; 100 and 300 know each other at level 1 only.
    let one_of_two = q_without(&[(0, 0, RIGHT), (1, 0, LEFT), (1, 0, RIGHT), (2, 0, LEFT)]);
    for (mut bytes, way) in [
        (level_0, Unsettled::Level0),
        (level_1, Unsettled::AboveLevel0),
        (one_of_two, Unsettled::OneOfSeveral),
    ] {
        assert_eq!(Unsettled::of_bytes(&bytes), Some(way));
        let mut model = lent::from_bytes(&bytes).expect("the record is sound");
        for (seat, refusal) in [(0, 13), (1, 13), (9, 8), (64, 3)] {
            let find = Call::Find { seat, number: 250 };
            assert_eq!(find.on_bytes(&mut bytes), Answer::refused(refusal));
            assert_eq!(find.on_model(&mut model), Answer::refused(refusal));
        }
    }
}

/// Lot 100 links to 200 and tells it so; then it passes 300 on to 200. What was
/// sent by the first stands behind the second, which is smaller.
#[test]
fn a_bundle_of_two() {
    let mut model = three_joined();
    assert_eq!(model.bundle(2), 2);
    assert_eq!(model.link(0, 0, RIGHT), Ok(Some(1)));
    let sent = [
        Message::meet(1, 0, 0),
        Message::meet(1, 2, 0),
        Message::probe(1, 0, 0),
    ];
    assert_eq!(*model.pending(), BTreeSet::from(sent));
}

/// The third is one that the first has sent.
#[test]
fn a_bundle_delivers_what_it_sends() {
    let mut model = three_joined();
    assert_eq!(model.bundle(3), 3);
    assert_eq!(model.link(1, 0, LEFT), Ok(Some(0)));
    assert!(!model.is_pending(Message::meet(1, 0, 0)));
}

#[test]
fn a_bundle_of_0_changes_nothing() {
    let mut model = three_joined();
    assert_eq!(model.bundle(0), 0);
    assert_eq!(model, three_joined());
}

#[test]
fn a_large_bundle_is_all_deliveries() {
    let mut model = three_joined();
    let deliveries = three_joined().settle();
    assert_eq!(u64::from(model.bundle(u16::MAX)), deliveries);
    assert_eq!(model, q());
    for limit in [deliveries as u16, deliveries as u16 + 1] {
        let mut model = three_joined();
        assert_eq!(u64::from(model.bundle(limit)), deliveries);
        assert_eq!(model, q());
    }
}

/// Neither 10 nor 11: nothing pending is no fault, in both phases.
#[test]
fn a_bundle_of_nothing_is_accepted() {
    let mut model = q();
    assert_eq!(model.bundle(u16::MAX), 0);
    assert_eq!(model, q());
    model.leave(1).unwrap();
    model.turn().unwrap();
    assert!(model.bundle(u16::MAX) > 0);
    assert_eq!(model.phase(), Phase::Clearing);
    assert_eq!(model.bundle(1), 0);
}

#[test]
fn a_bundle_meets_1_and_2_alone() {
    let bundle = Call::Bundle { limit: 1 };
    let mut bytes = lent::to_bytes(&three_joined());
    bytes[PHASE_AT] = 2;
    assert_eq!(bundle.on_bytes(&mut bytes), Answer::refused(2));
    bytes.push(0);
    assert_eq!(bundle.on_bytes(&mut bytes), Answer::refused(1));
    let mut empty = lent::to_bytes(&Model::open());
    assert_eq!(bundle.on_bytes(&mut empty), Answer::accepted(NO_VALUES));
}

#[test]
fn reading_a_link_meets_3_then_12_then_8() {
    let model = q();
    assert_eq!(model.link(64, 9, 2), Err(Refusal::NoSuchSeat));
    assert_eq!(model.link(9, 9, 0), Err(Refusal::NoSuchLevel));
    assert_eq!(model.link(9, 8, 2), Err(Refusal::NoSuchLevel));
    assert_eq!(model.link(9, 8, 1), Err(Refusal::EmptySeat));
    assert_eq!(model.link(0, 8, 1), Ok(None));
    assert_eq!(model.link(0, 1, RIGHT), Ok(Some(2)));
}

#[test]
fn a_leavers_link_makes_the_check_say_no_while_clearing() {
    let mut model = q();
    model.leave(1).unwrap();
    assert!(model.check());
    model.turn().unwrap();
    assert!(!model.check());
    model.settle();
    assert!(model.check());
}

#[test]
fn unsound_parts_are_refused() {
    let unsound = |pending: Message| {
        let mut lots: Lots = [const { None }; SEATS];
        for (seat, number) in [100, 200].into_iter().enumerate() {
            lots[seat] = Some(Lot {
                number,
                vector: 128 * seat as u8,
                state: State::Staying,
                links: NO_LINKS,
            });
        }
        let pending = BTreeSet::from([pending]);
        Model::from_parts(lots, Phase::Open, pending) == Err(Refusal::Unsound)
    };
    assert!(!unsound(Message::meet(0, 1, 0)));
    assert!(unsound(Message::meet(0, 0, 0)));
    assert!(unsound(Message::meet(0, 1, 1)));
    assert!(unsound(Message::meet(0, 2, 0)));
    assert!(unsound(Message::seek(0, 1, 0)));
    let odd = |kind, side| Message {
        kind,
        side,
        ..Message::meet(0, 1, 0)
    };
    assert!(unsound(odd(8, 0)));
    assert!(unsound(odd(0, 0)));
    assert!(unsound(odd(1, 1)));
    assert!(!unsound(odd(3, 1)));
    assert!(unsound(odd(3, 2)));
}
