//! Reservations put wrongly into the model. Scripts have none, so lists of calls
//! show them.

use super::lists::*;
use crate::model::{Fault, WrongReserved, WrongReserving};

const REFUSED_CHANGED: &str = "a refused call changed the record";
const MEMBERS: &str = "the members are not the roster's";
const SENDS: &str = "a call does not send what it says";
const JOIN: &str = "a join is not a reservation and its confirmation";
const CONFIRM: &str = "a confirmation is not the join in its place";
const LEFT: &str = "a reservation that is given back leaves something";

/// Each with all ways in which lists fail.
const RESERVED: [(WrongReserved, &[&str]); 10] = [
    (WrongReserved::Counted, &[READINGS]),
    (WrongReserved::FoundFrom, &[REFUSAL]),
    (WrongReserved::Holds, &[OTHER_LOT]),
    (WrongReserved::MayLeave, &[REFUSAL]),
    (WrongReserved::LinkRead, &[READINGS]),
    (WrongReserved::IsContact, &[REFUSAL]),
    (WrongReserved::NeedsContact, &[REFUSAL]),
    (WrongReserved::SeatFree, &[REFUSAL]),
    (WrongReserved::NumberFree, &[REFUSAL]),
    (WrongReserved::NotShown, &[READINGS]),
];

const RESERVING: [(WrongReserving, &[&str]); 18] = [
    (WrongReserving::ReserveSends, &[JOIN, UNSOUND]),
    (WrongReserving::ReserveLinks, &[JOIN, UNSOUND]),
    (WrongReserving::ConfirmSendsNothing, &[JOIN, COMPONENTS]),
    (WrongReserving::ConfirmTellsTheNewcomer, &[JOIN, SENDS]),
    (WrongReserving::FirstConfirmSends, &[JOIN, UNSOUND]),
    (WrongReserving::ConfirmSendsToItself, &[REFUSAL]),
    (WrongReserving::GiveBackKeeps, &[LEFT]),
    (
        WrongReserving::GiveBackLeavesNumber(None),
        &[CONFIRM, REFUSAL],
    ),
    (
        WrongReserving::GiveBackLeavesVector(None),
        &[JOIN, READINGS],
    ),
    (WrongReserving::TurnToClearingFrees, &[READINGS]),
    (WrongReserving::TurnToOpenFrees, &[READINGS]),
    (WrongReserving::RefusedJoinReserves, &[REFUSED_CHANGED]),
    (WrongReserving::ReserveInClearing, &[REFUSAL]),
    (WrongReserving::ConfirmInClearing, &[REFUSAL]),
    (WrongReserving::GiveBackWaits, &[REFUSAL]),
    (WrongReserving::NotReservedIsEmpty, &[REFUSAL]),
    (WrongReserving::NotReservedBeforeClearing, &[REFUSAL]),
    (WrongReserving::NoContactBeforeNotReserved, &[REFUSAL]),
];

fn wrong() -> impl Iterator<Item = (Fault, &'static [&'static str])> {
    let reserved = RESERVED.map(|(wrong, ways)| (Fault::Reserved(wrong), ways));
    let reserving = RESERVING.map(|(wrong, ways)| (Fault::Reserving(wrong), ways));
    let member: (_, &[_]) = (Fault::ReservedIsMember, &[MEMBERS]);
    reserved.into_iter().chain(reserving).chain([member])
}

#[test]
fn reservations_go_wrong() {
    are_caught(wrong().map(|(fault, ways)| (fault, ways.to_vec())));
}
