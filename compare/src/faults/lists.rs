//! Faults shown by lists of calls: how those fail that are generated, and those that are
//! fixed.

use crate::call::Call;
use crate::list::{self, fixed};
use crate::model::{Fault, Model};
use crate::roster::{Roster, WrongRoster};
use crate::selfcheck::{run_list_beside, Failure};
use std::collections::BTreeSet;

const LISTS: u64 = 150;
const CALLS: u64 = 150;

pub const REFUSAL: &str = "not the table's refusal";
pub const UNSOUND: &str = "the record is not sound";
pub const READINGS: &str = "readings are not the roster's";
pub const COMPONENTS: &str = "components by links and MEETs are not the roster's";
pub const GRAPH: &str = "settled links are not the graph of the members";
pub const OTHER_LOT: &str = "an accepted search gave another lot";

/// What is checked: a model beside a roster, of which one may be wrong.
#[derive(Clone)]
pub struct Beside {
    model: Model,
    roster: Option<WrongRoster>,
}

impl Beside {
    pub fn right() -> Beside {
        Beside {
            model: Model::open(),
            roster: None,
        }
    }

    pub fn model(fault: Fault) -> Beside {
        Beside {
            model: Model::with_fault(fault),
            roster: None,
        }
    }

    pub fn roster(wrong: WrongRoster) -> Beside {
        Beside {
            model: Model::open(),
            roster: Some(wrong),
        }
    }

    fn run(&self, list: &[Call]) -> Result<(), Failure> {
        let mut roster = Roster::new();
        roster.wrong = self.roster;
        run_list_beside(roster, self.model.clone(), list)
    }

    /// The generated lists that fail, and how.
    pub fn failures(&self) -> Vec<(u64, Failure)> {
        let failure = |index| {
            let list = list::generate(2, index, CALLS as usize);
            Some((index, self.run(&list).err()?))
        };
        (0..LISTS).filter_map(failure).collect()
    }

    /// All ways in which generated lists fail.
    pub fn ways(&self, name: &str) -> BTreeSet<&'static str> {
        let failures = self.failures();
        let (index, first) = failures.first().expect("the fault passes every self check");
        let calls = index * CALLS + first.line as u64;
        println!("{name}: {calls} calls, {} of {LISTS} lists", failures.len());
        failures.iter().map(|(_, failure)| failure.what).collect()
    }

    /// How the fixed lists fail.
    pub fn fixed_failures(&self) -> Vec<Failure> {
        let lists = fixed::lists().into_iter();
        let runs = lists.map(|(_, list)| self.run(&fixed::calls(&list)));
        runs.filter_map(Result::err).collect()
    }
}

/// Faults, each with all ways in which generated lists fail, and shown by a fixed list
/// too.
pub fn are_caught(wrong: impl IntoIterator<Item = (Fault, Vec<&'static str>)>) {
    for (fault, expected) in wrong {
        let (beside, name) = (Beside::model(fault), format!("{fault:?}"));
        let caught = beside.ways(&name);
        let failing = beside.fixed_failures().len();
        println!("{name}: {failing} of the fixed lists");
        assert_eq!(caught, BTreeSet::from_iter(expected), "{name}");
        assert!(failing > 0, "{name}");
    }
}

#[test]
fn no_fault_no_failure() {
    assert!(Beside::right().failures().is_empty());
}
