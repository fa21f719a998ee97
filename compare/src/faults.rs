//! Each fault of document 01's "Faults that pass a first trial", each bundle that
//! is not #101's, each search that is not #102's or #104's, each meeting that
//! writes a link wrongly, #103, each reservation that is not #105's, each crash,
//! check and search of several components that is not #106's, and each merge that is not
//! #107's, put into the model, is caught by a self check on some script or list of calls;
//! or, where these cannot show it, by the calls on lent bytes on records that no calls
//! lead to.

mod crashes;
mod lists;
mod merges;
mod reservations;

use crate::graph::SEATS;
use crate::inputs;
use crate::lent::{self, from_bytes};
use crate::model::{Fault, Model, WrongBundle, WrongFind, WrongHolder, WrongMeet};
use crate::random::Random;
use crate::script::{self, fixed};
use crate::selfcheck::{run_on, Failure};
use crate::unsettled::Unsettled;
use std::collections::BTreeSet;

const SCRIPTS: u64 = 100;
const LINES: usize = 120;

/// The scripts that fail, and how.
fn failures(model: Model) -> impl Iterator<Item = (u64, Failure)> {
    (0..SCRIPTS).filter_map(move |index| {
        let input = script::generate(1, index, LINES).concat();
        let failure = run_on(model.clone(), &input).err()?;
        Some((index, failure))
    })
}

fn first_failure(model: Model) -> Option<Failure> {
    failures(model).map(|(_, failure)| failure).next()
}

/// All ways in which scripts fail.
fn ways_caught(fault: Fault) -> BTreeSet<&'static str> {
    let failures: Vec<_> = failures(Model::with_fault(fault)).collect();
    println!("{fault:?}: {} scripts", failures.len());
    println!("the first: {:?}", failures.first());
    failures.iter().map(|(_, failure)| failure.what).collect()
}

fn caught_as(fault: Fault) -> &'static str {
    let failure = first_failure(Model::with_fault(fault));
    failure.expect("the fault passes every self check").what
}

#[test]
fn no_fault_no_failure() {
    assert_eq!(first_failure(Model::open()), None);
}

#[test]
fn old_neighbour_dropped() {
    let what = caught_as(Fault::OldNeighbourDropped);
    assert_eq!(what, "settled links are not the graph of the members");
}

#[test]
fn no_pull() {
    let what = caught_as(Fault::NoPull);
    assert_eq!(what, "settled links are not the graph of the members");
}

#[test]
fn leaver_alters_its_links() {
    let ways = ways_caught(Fault::LeaverAltersItsLinks);
    let expected = [
        "settled links are not the graph of the members",
        "components by links and MEETs are not the roster's",
    ];
    assert_eq!(ways, BTreeSet::from(expected));
}

/// Links are missing where lots share high bits, and wrong where low ones.
#[test]
fn bits_from_the_low_end() {
    let what = caught_as(Fault::BitsFromTheLowEnd);
    let ways = [
        "settled links are not the graph of the members",
        "the record is not sound",
    ];
    assert!(ways.contains(&what), "{what}");
}

#[test]
fn probe_at_level_8() {
    let what = caught_as(Fault::ProbeAtLevel8);
    assert_eq!(what, "the record is not sound");
}

#[test]
fn a_bundle_stops_one_short() {
    let what = caught_as(Fault::Bundle(WrongBundle::StopsOneShort));
    assert_eq!(what, "a bundle stopped before its limit with messages left");
}

#[test]
fn a_bundle_delivers_the_largest() {
    let what = caught_as(Fault::Bundle(WrongBundle::DeliversTheLargest));
    assert_eq!(what, "a bundle is not deliveries of the smallest");
}

#[test]
fn a_bundle_delivers_the_first_sent() {
    let ways = ways_caught(Fault::Bundle(WrongBundle::DeliversTheFirstSent));
    let expected = [
        "a bundle is not deliveries of the smallest",
        "a bundle is not one of a part of its limit and then one of the rest",
        // The record is settled either way, but by more deliveries or fewer.
        "a bundle does not count its deliveries",
        "bundles do not settle as single deliveries do",
    ];
    assert_eq!(ways, BTreeSet::from(expected));
}

#[test]
fn a_bundle_counts_one_too_many() {
    let what = caught_as(Fault::Bundle(WrongBundle::CountsOneTooMany));
    let ways = [
        "a bundle counts more than its limit",
        "a bundle does not count its deliveries",
    ];
    assert!(ways.contains(&what), "{what}");
}

#[test]
fn a_bundle_delivers_at_limit_0() {
    let what = caught_as(Fault::Bundle(WrongBundle::DeliversAtLimit0));
    assert_eq!(what, "a bundle is not deliveries of the smallest");
}

#[test]
fn a_bundle_counts_the_limit_where_nothing_is_left() {
    let what = caught_as(Fault::Bundle(WrongBundle::CountsTheLimit));
    assert_eq!(what, "a bundle does not count its deliveries");
}

fn search_caught_as(wrong: WrongFind) -> &'static str {
    caught_as(Fault::Find(wrong))
}

#[test]
fn a_search_meets_13_before_8() {
    let what = search_caught_as(WrongFind::UnsettledBeforeEmptySeat);
    assert_eq!(what, "not the table's refusal");
}

#[test]
fn a_search_meets_13_since_a_lot_is_leaving() {
    let what = search_caught_as(WrongFind::LeaverUnsettles);
    assert_eq!(what, "not the table's refusal");
}

#[test]
fn a_search_looks_at_half_of_the_pending() {
    let what = search_caught_as(WrongFind::HalfOfThePending);
    assert_eq!(what, "not the table's refusal");
}

/// With nothing pending in phase open, the check of a script's record says yes.
#[test]
fn a_search_asks_too_little_of_the_check() {
    for wrong in [WrongFind::CheckNotAsked, WrongFind::OnlyLevel0Asked] {
        let model = Model::with_fault(Fault::Find(wrong));
        assert_eq!(first_failure(model), None);
    }
}

/// The ways in which records are unsettled, none for settled ones, whose searches
/// on lent bytes and on the model with a fault differ.
fn ways_shown(wrong: WrongFind) -> BTreeSet<Option<Unsettled>> {
    let mut random = Random::new(6);
    let mut ways = BTreeSet::new();
    for _ in 0..3_000 {
        let pools = inputs::pools(&mut random);
        let bytes = inputs::sound_record(&pools, &mut random);
        let model = from_bytes(&bytes).expect("the record is sound");
        let model = model.and_fault(Fault::Find(wrong));
        let number = random.pick(&pools.numbers);
        let differs = |seat| lent::find(&bytes, seat, number) != model.find(seat, number);
        if (0..SEATS as u8).any(differs) {
            ways.insert(Unsettled::of_bytes(&bytes));
        }
    }
    ways
}

#[test]
fn searches_on_records_that_no_calls_lead_to() {
    let by_check = [
        Unsettled::Level0,
        Unsettled::AboveLevel0,
        Unsettled::OneOfSeveral,
    ];
    let shown: [(WrongFind, &[Option<Unsettled>]); 5] = [
        (WrongFind::CheckNotAsked, &by_check.map(Some)),
        (
            WrongFind::UnsettledBeforeEmptySeat,
            &Unsettled::ALL.map(Some),
        ),
        (WrongFind::LeaverUnsettles, &[None]),
        (
            WrongFind::OnlyLevel0Asked,
            &[Unsettled::AboveLevel0, Unsettled::OneOfSeveral].map(Some),
        ),
        (WrongFind::HalfOfThePending, &[Some(Unsettled::Pending)]),
    ];
    for (wrong, ways) in shown {
        let ways = BTreeSet::from_iter(ways.iter().copied());
        assert_eq!(ways_shown(wrong), ways, "{wrong:?}");
    }
}

const ANOTHER_LOT: &str = "an accepted search gave another lot";
const OTHER_HOPS: &str = "an accepted search counted other hops";

/// Each with all ways in which scripts fail. Where nobody stays further left, an
/// answer of none that comes too early has too few hops alone.
const WRONG_HOLDERS: [(WrongHolder, &[&str]); 8] = [
    (WrongHolder::LeaverNamed, &[ANOTHER_LOT]),
    (WrongHolder::LeftOfTheEndNamed, &[ANOTHER_LOT]),
    (WrongHolder::SecondLeaverNamed, &[ANOTHER_LOT]),
    (
        WrongHolder::NoneAtTheSecondLeaver,
        &[ANOTHER_LOT, OTHER_HOPS],
    ),
    (WrongHolder::NoneAtALeaver, &[ANOTHER_LOT, OTHER_HOPS]),
    (WrongHolder::LeftStepsNotCounted, &[OTHER_HOPS]),
    (WrongHolder::MissingLinkCounted, &[OTHER_HOPS]),
    (WrongHolder::SmallestStaying, &[ANOTHER_LOT]),
];

#[test]
fn a_search_goes_past_leavers_wrongly() {
    for (wrong, ways) in WRONG_HOLDERS {
        let ways = BTreeSet::from_iter(ways.iter().copied());
        assert_eq!(ways_caught(Fault::Holder(wrong)), ways, "{wrong:?}");
    }
}

/// Each shows in several of the scripts that are written for it.
#[test]
fn fixed_scripts_go_past_leavers() {
    let scripts = fixed::scripts().into_iter();
    let scripts = scripts.filter(|(name, _)| name.starts_with("past leavers"));
    let inputs: Vec<_> = scripts.map(|(_, script)| script.concat()).collect();
    for (wrong, _) in WRONG_HOLDERS {
        let model = Model::with_fault(Fault::Holder(wrong));
        let fails = |input: &&Vec<u8>| run_on(model.clone(), input).is_err();
        let failing = inputs.iter().filter(fails).count();
        println!("{wrong:?}: {failing} of {}", inputs.len());
        assert!(failing >= 2, "{wrong:?}: {failing}");
    }
}

fn meeting_caught_as(wrong: WrongMeet) -> &'static str {
    caught_as(Fault::Meet(wrong))
}

/// A left link names a lot on the right; and two lots of which one never links to
/// the other tell each other of themselves again and again.
#[test]
fn a_meeting_writes_one_place_beside() {
    let what = meeting_caught_as(WrongMeet::OnePlaceBeside);
    let ways = ["the record is not sound", "deliveries do not end"];
    assert!(ways.contains(&what), "{what}");
}

#[test]
fn a_meeting_clears_the_opposite_link() {
    let what = meeting_caught_as(WrongMeet::OppositeCleared);
    assert_eq!(what, "settled links are not the graph of the members");
}

#[test]
fn a_meeting_sets_the_link_though_it_is_passed_on() {
    let what = meeting_caught_as(WrongMeet::SetThoughPassedOn);
    assert_eq!(what, "settled links are not the graph of the members");
}
