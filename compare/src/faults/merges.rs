//! Merges put wrongly into the model, and rosters that do not make two components one.
//! Scripts have no merge, so lists of calls show them.

use super::lists::*;
use crate::model::{Fault, WrongMerge};
use crate::roster::WrongRoster;
use std::collections::BTreeSet;

const SENDS: &str = "a merge does not send what it says";
const CHANGES: &str = "a merge changes more than what is pending";

/// Each with all ways in which lists fail.
const WRONG: [(WrongMerge, &[&str]); 21] = [
    (WrongMerge::TurnedRound, &[SENDS]),
    (WrongMerge::BothTold, &[SENDS]),
    (WrongMerge::AtLevel1, &[SENDS, UNSOUND]),
    (WrongMerge::NothingSent, &[COMPONENTS, SENDS]),
    (WrongMerge::LinkedNotTold, &[SENDS]),
    (WrongMerge::LinksAtOnce, &[SENDS, CHANGES, GRAPH]),
    (WrongMerge::OthersTaken, &[COMPONENTS, SENDS]),
    (WrongMerge::LeaverStays, &[READINGS]),
    (WrongMerge::WithinRefused, &[REFUSAL]),
    (WrongMerge::PendingRefused, &[REFUSAL]),
    (WrongMerge::FirstLeaverRefused, &[REFUSAL]),
    (WrongMerge::SecondLeaverRefused, &[REFUSAL]),
    (WrongMerge::ReservedTaken, &[REFUSAL]),
    (WrongMerge::FreeSecondTaken, &[REFUSAL]),
    (WrongMerge::SameLotTaken, &[REFUSAL]),
    (WrongMerge::InClearing, &[REFUSAL]),
    (WrongMerge::SameLotBeforeEmptySeat, &[REFUSAL]),
    (WrongMerge::SameLotBeforeClearing, &[REFUSAL]),
    (WrongMerge::EmptySeatBeforeClearing, &[REFUSAL]),
    (WrongMerge::ClearingBeforeNoSeat, &[REFUSAL]),
    (WrongMerge::NoSecondSeatIsEmpty, &[REFUSAL]),
];

#[test]
fn merges_go_wrong() {
    are_caught(WRONG.map(|(wrong, ways)| (Fault::Merge(wrong), ways.to_vec())));
}

/// The right model beside a roster that keeps the two apart, or takes one lot over.
#[test]
fn rosters_that_do_not_unite() {
    for wrong in [WrongRoster::NeverUnited, WrongRoster::SecondAlone] {
        let beside = Beside::roster(wrong);
        let caught = beside.ways(&format!("{wrong:?}"));
        assert_eq!(caught, BTreeSet::from([COMPONENTS]), "{wrong:?}");
        assert!(!beside.fixed_failures().is_empty(), "{wrong:?}");
    }
}
