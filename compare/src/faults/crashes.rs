//! Crashes put wrongly into the model, checks of several components that say
//! otherwise, searches that look beyond their own, and a roster that keeps one
//! component where there are two. Scripts have no crash, so lists of calls show them.

use super::lists::*;
use crate::graph::{LEVELS, SIDES};
use crate::model::{Fault, WrongCheck, WrongCrash};
use crate::roster::WrongRoster;
use std::collections::BTreeSet;

const CHECK: &str = "the check is not the definition's";
const NOBODY: &str = "a crash of nobody changed the record";
const SENDS: &str = "a crash does not send what it says";

/// Each with all ways in which lists fail.
fn wrong() -> Vec<(Fault, Vec<&'static str>)> {
    let mut wrong = vec![
        (WrongCrash::UntouchedForgotten, vec![SENDS]),
        (WrongCrash::SentAtItsLevel, vec![SENDS]),
        (WrongCrash::Level0Sends, vec![SENDS]),
        (WrongCrash::Set0Sends, vec![NOBODY]),
        (WrongCrash::Set0Passes, vec![REFUSAL]),
        (WrongCrash::NothingFreed, vec![READINGS]),
        (WrongCrash::LastKept, vec![READINGS]),
        (WrongCrash::MarkedAsLeaving, vec![READINGS]),
        (WrongCrash::FreeSeatNamed, vec![REFUSAL]),
        (WrongCrash::ReservedFreed, vec![REFUSAL]),
        (WrongCrash::LeaverIsEmpty, vec![REFUSAL]),
        (WrongCrash::InClearing, vec![REFUSAL]),
        (WrongCrash::PendingTaken, vec![REFUSAL]),
        (WrongCrash::EmptySeatBeforeClearing, vec![REFUSAL]),
        (WrongCrash::MessagesLeftBeforeEmptySeat, vec![REFUSAL]),
    ];
    for side in SIDES {
        wrong.push((WrongCrash::EndForgotten(side), vec![SENDS]));
        let levels = [0, 1, LEVELS - 1];
        wrong.extend(levels.map(|level| (WrongCrash::LinkLeft(level, side), vec![UNSOUND])));
    }
    let wrong = wrong.into_iter();
    let wrong = wrong.map(|(wrong, ways)| (Fault::Crash(wrong), ways));
    let others = [
        (Fault::Check(WrongCheck::WantsOneList), vec![CHECK]),
        (Fault::Check(WrongCheck::FirstComponentAsked), vec![CHECK]),
        (Fault::Check(WrongCheck::SeveralPass), vec![CHECK]),
        (Fault::SeeksAmongAll, vec![OTHER_LOT]),
    ];
    wrong.chain(others).collect()
}

#[test]
fn crashes_go_wrong() {
    are_caught(wrong());
}

/// The ends of a link mostly know each other at other levels too, which send the same
/// MEETs. A fixed list has a link for each level that no other level has.
#[test]
fn a_crash_forgets_a_level() {
    for level in 1..LEVELS {
        let fault = Fault::Crash(WrongCrash::LevelForgotten(level));
        let failures = Beside::model(fault).fixed_failures().into_iter();
        let caught: BTreeSet<&str> = failures.map(|failure| failure.what).collect();
        assert!(caught.contains(GRAPH), "{fault:?}: {caught:?}");
        assert!(
            caught.is_subset(&BTreeSet::from([GRAPH, SENDS])),
            "{fault:?}: {caught:?}"
        );
    }
}

/// The right model beside a roster that keeps one component after a cut.
#[test]
fn a_roster_that_is_never_cut() {
    let never_cut = Beside::roster(WrongRoster::NeverCut);
    let caught = never_cut.ways("a roster that is never cut");
    assert_eq!(caught, BTreeSet::from([COMPONENTS]));
    assert!(!never_cut.fixed_failures().is_empty());
}
