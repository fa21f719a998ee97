//! A scale dies (#106): components, the check and searches of them, and crashes of
//! records that no calls lead to. What each call answers stands in `list::fixed`.

use super::{q, q_without, LEFT, RIGHT};
use crate::call::{Answer, Call};
use crate::lent;
use crate::lent::place::*;
use crate::lent::{from_bytes, to_bytes};
use crate::model::{Found, Message, Model, Refusal};
use crate::selfcheck;
use crate::unsettled::Unsettled;
use std::collections::BTreeSet;

/// The links of Q, each from both ends.
const LINKS: [(u8, usize, u8); 6] = [
    (0, 0, RIGHT),
    (1, 0, LEFT),
    (1, 0, RIGHT),
    (2, 0, LEFT),
    (0, 1, RIGHT),
    (2, 1, LEFT),
];

/// A pending MEET is no link: two components, each a skip graph.
#[test]
fn the_check_says_yes_of_a_lot_that_has_just_joined() {
    let mut model = Model::open();
    model.join(0, 100, 0, 255).unwrap();
    model.join(1, 200, 128, 0).unwrap();
    assert!(model.check());
    assert_eq!(lent::check(&to_bytes(&model)), Ok(true));
    assert_eq!(model.find(0, 200), Err(Refusal::Unsettled));
}

/// Of Q without any link: three components. A search answers for its own.
#[test]
fn several_components_are_settled() {
    let mut bytes = q_without(&LINKS);
    assert_eq!(Unsettled::of_bytes(&bytes), None);
    assert_eq!(lent::check(&bytes), Ok(true));
    for (seat, number, holder) in [(0, 250, Some(0)), (1, 350, Some(1)), (2, 250, None)] {
        let found = Found { holder, hops: 0 };
        assert_eq!(lent::find(&bytes, seat, number), Ok(found));
        let mut model = from_bytes(&bytes).unwrap();
        let find = Call::Find { seat, number };
        assert_eq!(find.on_model(&mut model), Answer::found(found));
    }
    assert_eq!(lent::crash(&mut bytes, 0b100), Ok(()));
    assert_eq!(lent::check(&bytes), Ok(true));
}

/// 100 and 300 at level 1 alone beside 200; or a level-0 link that one end alone
/// holds. The rest is right.
#[test]
fn the_check_says_no_where_one_component_is_no_graph() {
    for gone in [&LINKS[..4], &LINKS[1..]] {
        let mut bytes = q_without(gone);
        assert_eq!(lent::check(&bytes), Ok(false));
        assert_eq!(
            Call::Check
                .on_model(&mut from_bytes(&bytes).unwrap())
                .values[0],
            0
        );
        assert_eq!(
            Unsettled::of_bytes(&bytes),
            Some(Unsettled::OneOfSeveral),
            "{gone:?}"
        );
        assert_eq!(lent::crash(&mut bytes, 0), Ok(()));
        assert_eq!(lent::check(&bytes), Ok(false));
    }
}

/// Held by either end alone, the link at level 1 makes both hear of each other.
#[test]
fn a_link_of_one_end_sends_to_both() {
    for gone in [(0, 1, RIGHT), (2, 1, LEFT)] {
        let mut bytes = q_without(&[gone]);
        let mut model = from_bytes(&bytes).unwrap();
        assert_eq!(lent::crash(&mut bytes, 0b010), Ok(()));
        assert_eq!(model.crash(0b010), Ok(()));
        assert_eq!(to_bytes(&model), bytes);
        let sent = [Message::meet(0, 2, 0), Message::meet(2, 0, 0)];
        assert_eq!(*model.pending(), BTreeSet::from(sent));
    }
}

/// The entry of a seat that crashed is that of a free one, and a link to it is none.
#[test]
fn bytes_after_a_crash() {
    let mut bytes = to_bytes(&q());
    lent::crash(&mut bytes, 0b110).unwrap();
    let mut alone = to_bytes(&Model::open());
    lent::join(&mut alone, 0, 100, 0, 255).unwrap();
    assert_eq!(bytes, alone);
}

#[test]
fn a_crash_meets_1_and_2_first() {
    let crash = Call::Crash { seats: u64::MAX };
    let mut bytes = to_bytes(&q());
    assert_eq!(crash.on_bytes(&mut bytes), Answer::refused(8));
    bytes[PHASE_AT] = 2;
    assert_eq!(crash.on_bytes(&mut bytes), Answer::refused(2));
    bytes.push(0);
    assert_eq!(crash.on_bytes(&mut bytes), Answer::refused(1));
}

/// Of six lots each set crashes, and then each one more of those that are left: what the
/// self check asks of a crash holds of all of them.
#[test]
fn every_crash_of_a_small_record() {
    let (six, settle) = (six_lots(), settle());
    for seats in 0..1u64 << 6 {
        for seat in (0..6).filter(|seat| seats >> seat & 1 == 0) {
            let other = Call::Crash { seats: 1 << seat };
            let crashes = [Call::Crash { seats }, settle, other, settle, Call::Check];
            let list = [&six[..], &crashes].concat();
            assert_eq!(selfcheck::run_list(&list), Ok(()), "{seats} {seat}");
        }
    }
}

/// Joins six lots on the first seats, all through the first, and delivers all.
pub fn six_lots() -> Vec<Call> {
    let lots = [(10, 0), (20, 128), (30, 1), (40, 192), (50, 64), (60, 129)];
    let join = |(seat, (number, vector))| Call::Join {
        seat,
        number,
        vector,
        contact: if seat == 0 { 255 } else { 0 },
    };
    let joins = (0..).zip(lots).map(join);
    joins.chain([settle()]).collect()
}

pub fn settle() -> Call {
    Call::Bundle { limit: u16::MAX }
}
