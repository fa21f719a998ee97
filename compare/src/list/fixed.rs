//! Lists that are the same in every run, with their answers as they follow from
//! document 02's words (#105 to #107). Together they meet all that is told apart of
//! reserved lots, of crashes and several components, and of merges.

mod crashes;
mod long;
mod merges;
mod steps;

use crate::call::{Answer, Call, NO_VALUES};
use crate::graph::SEATS;
use crate::model::NO_CONTACT;
use long::{asked_in_each_phase, beside_a_graph, join_in_two_steps};

/// The calls of a list, each with its answer.
pub type Answered = Vec<(Call, Answer)>;

/// Every fixed list, with a name for reports.
pub fn lists() -> Vec<(&'static str, Answered)> {
    let mut lists = of_reservations();
    lists.extend(crashes::lists());
    lists.extend(merges::lists());
    lists
}

fn of_reservations() -> Vec<(&'static str, Answered)> {
    vec![
        ("a first lot", first_lot()),
        ("only reserved lots, one joins", one_joins()),
        ("only reserved lots, one is confirmed", one_is_confirmed()),
        ("seats and numbers in use", seats_and_numbers()),
        ("beside a graph", beside_a_graph()),
        ("asked in each phase", asked_in_each_phase()),
        ("a join in two steps", join_in_two_steps()),
        ("given back and taken again", taken_again()),
        ("all seats", all_seats()),
    ]
}

/// Without the answers.
pub fn calls(list: &[(Call, Answer)]) -> Vec<Call> {
    list.iter().map(|(call, _)| *call).collect()
}

const OK: Answer = Answer {
    refusal: 0,
    values: NO_VALUES,
};

fn no(refusal: u8) -> Answer {
    Answer::refused(refusal)
}

/// Accepted with these values; those that are not named are 0.
fn gives<const N: usize>(some: [u64; N]) -> Answer {
    let mut values = NO_VALUES;
    values[..N].copy_from_slice(&some);
    Answer::accepted(values)
}

fn join(seat: u8, number: u64, vector: u8, contact: u8) -> Call {
    Call::Join {
        seat,
        number,
        vector,
        contact,
    }
}

fn reserve(seat: u8, number: u64, vector: u8) -> Call {
    Call::Reserve {
        seat,
        number,
        vector,
    }
}

fn confirm(seat: u8, contact: u8) -> Call {
    Call::Confirm { seat, contact }
}

fn give_back(seat: u8) -> Call {
    Call::GiveBack { seat }
}

fn leave(seat: u8) -> Call {
    Call::Leave { seat }
}

fn find(seat: u8, number: u64) -> Call {
    Call::Find { seat, number }
}

fn lot(seat: u8) -> Call {
    Call::ReadLot { seat }
}

fn crash<const N: usize>(named: [u8; N]) -> Call {
    let seats = named.iter().fold(0, |set, seat| set | 1 << seat);
    Call::Crash { seats }
}

fn left_link(seat: u8, level: u8) -> Call {
    let side = 0;
    Call::ReadLink { seat, level, side }
}

fn right_link(seat: u8, level: u8) -> Call {
    let side = 1;
    Call::ReadLink { seat, level, side }
}

/// Nothing of it is seen but by reading the lot; then it is the first lot.
fn first_lot() -> Answered {
    vec![
        (reserve(0, 100, 7), OK),
        (lot(0), gives([3, 100, 7])),
        (lot(1), no(8)),
        (Call::ReadCounts, gives([0, 0, 0])),
        (Call::Check, gives([1])),
        (right_link(0, 0), no(8)),
        (find(0, 100), no(8)),
        (leave(0), no(8)),
        (Call::Turn, OK),
        (Call::Bundle { limit: 9 }, gives([0])),
        (confirm(0, 0), no(6)),
        (confirm(0, 1), no(6)),
        (confirm(0, NO_CONTACT), OK),
        (lot(0), gives([1, 100, 7])),
        (right_link(0, 0), gives([255])),
        (Call::ReadCounts, gives([1, 0, 0])),
        (find(0, 100), gives([0, 0])),
        (confirm(0, NO_CONTACT), no(14)),
        (give_back(0), no(14)),
    ]
}

/// Reserved lots are no contacts, and the first that is seated needs none.
fn one_joins() -> Answered {
    vec![
        (reserve(0, 100, 0), OK),
        (reserve(1, 200, 128), OK),
        (join(3, 400, 0, 0), no(6)),
        (join(3, 400, 0, 9), no(6)),
        (join(3, 400, 0, NO_CONTACT), OK),
        (confirm(0, NO_CONTACT), no(6)),
        (confirm(0, 1), no(6)),
        (confirm(0, 3), OK),
        (Call::ReadCounts, gives([2, 0, 1])),
    ]
}

fn one_is_confirmed() -> Answered {
    vec![
        (reserve(0, 100, 0), OK),
        (reserve(1, 200, 128), OK),
        (confirm(0, 1), no(6)),
        (confirm(0, 9), no(6)),
        (confirm(0, NO_CONTACT), OK),
        (Call::ReadCounts, gives([1, 0, 0])),
        (confirm(1, NO_CONTACT), no(6)),
        (confirm(1, 0), OK),
        (Call::ReadCounts, gives([2, 0, 1])),
    ]
}

/// 4 before 5, and 5 before 6, whichever of the two calls took them.
fn seats_and_numbers() -> Answered {
    vec![
        (join(0, 100, 0, NO_CONTACT), OK),
        (reserve(1, 200, 128), OK),
        (join(1, 300, 64, 0), no(4)),
        (reserve(1, 300, 64), no(4)),
        (reserve(1, 100, 64), no(4)),
        (reserve(0, 300, 64), no(4)),
        (join(2, 200, 64, 1), no(5)),
        (reserve(2, 200, 64), no(5)),
        (reserve(2, 100, 64), no(5)),
        // The contact is reserved. No reservation is left by it.
        (join(2, 300, 64, 1), no(6)),
        (join(2, 300, 64, NO_CONTACT), no(6)),
        (lot(2), no(8)),
        (join(2, 300, 64, 0), OK),
    ]
}

/// The seat and the number of a lot that was given back are free, in one step and
/// in two; and so is a seat that a turn frees.
fn taken_again() -> Answered {
    vec![
        (reserve(0, 100, 9), OK),
        (give_back(0), OK),
        (give_back(0), no(14)),
        (confirm(0, NO_CONTACT), no(14)),
        (reserve(0, 200, 8), OK),
        (reserve(1, 100, 9), OK),
        (lot(0), gives([3, 200, 8])),
        (give_back(1), OK),
        (give_back(0), OK),
        (join(0, 100, 7, NO_CONTACT), OK),
        (lot(0), gives([1, 100, 7])),
        (leave(0), OK),
        (Call::Turn, OK),
        (reserve(1, 300, 0), no(7)),
        (Call::Turn, OK),
        (reserve(0, 100, 6), OK),
        (lot(0), gives([3, 100, 6])),
    ]
}

/// All are reserved, confirmed through the last, and form one graph.
fn all_seats() -> Answered {
    let seats = 0..SEATS as u8;
    let last = SEATS as u8 - 1;
    let mut steps: Answered = Vec::new();
    steps.extend(
        seats
            .clone()
            .map(|seat| (reserve(seat, seat.into(), seat << 2), OK)),
    );
    steps.extend([
        (Call::ReadCounts, gives([0, 0, 0])),
        (join(5, 100, 0, NO_CONTACT), no(4)),
        (confirm(last, NO_CONTACT), OK),
    ]);
    steps.extend(seats.take(SEATS - 1).map(|seat| (confirm(seat, last), OK)));
    steps.push((Call::ReadCounts, gives([64, 0, 63])));
    steps
}

#[cfg(test)]
mod tests {
    use super::*;
    use crate::model::Model;
    use crate::{crashed, lent, list, merged, reserved, selfcheck};
    use std::collections::BTreeSet;
    use std::fmt::Debug;

    #[test]
    fn answers_are_those_that_stand_beside_the_calls() {
        for (name, list) in lists() {
            let mut model = Model::open();
            let mut bytes = lent::to_bytes(&model);
            for (line, (call, answer)) in (1..).zip(list) {
                assert_eq!(
                    call.on_model(&mut model),
                    answer,
                    "{name}, {line}: {call:?}"
                );
                assert_eq!(
                    call.on_bytes(&mut bytes),
                    answer,
                    "{name}, {line}: {call:?}"
                );
            }
        }
    }

    #[test]
    fn checks_pass() {
        for (name, list) in lists() {
            assert_eq!(selfcheck::run_list(&calls(&list)), Ok(()), "{name}");
        }
    }

    fn all_is_met<M: Ord + Copy + Debug>(
        all: BTreeSet<M>,
        tell: impl Fn(Call, Answer, &[u8]) -> Vec<M>,
    ) {
        let lists = lists().into_iter();
        let met = lists.flat_map(|(_, list)| list::met(&calls(&list), &tell));
        let met: BTreeSet<M> = met.collect();
        let left: Vec<_> = all.difference(&met).copied().collect();
        assert!(left.is_empty(), "not met: {left:?}");
        assert!(met.is_subset(&all), "{met:?}");
    }

    #[test]
    fn all_of_reserved_lots_is_met() {
        all_is_met(reserved::all(), reserved::met);
    }

    #[test]
    fn all_of_crashes_is_met() {
        all_is_met(crashed::all(), crashed::met);
    }

    #[test]
    fn all_of_merges_is_met() {
        all_is_met(merged::all(), merged::met);
    }
}
