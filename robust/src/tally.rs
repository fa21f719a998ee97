//! How often each call met each answer.

mod cases;
mod crashed;
pub(crate) mod leavers;
mod merged;
mod reserved;
mod searches;

use compare::call::{Answer, Call, NAMES, REFUSALS};
use compare::model::Refusal;
use crashed::Crashed;
use leavers::Leavers;
use merged::Merged;
use reserved::Reserved;
use searches::Searches;
use std::fmt;

pub use leavers::Source;

/// Accepted, and each refusal.
const ANSWERS: usize = 1 + Refusal::ORDER.len();

/// Accepted calls told apart by more than their name.
const CASES: [&str; 20] = [
    "MEET",
    "PROBE",
    "PULL",
    "GOING",
    "SEEK",
    "FOUND",
    "NONE",
    "holder",
    "no holder",
    "check yes",
    "check no",
    "pending",
    "not pending",
    "next",
    "no next",
    "limit 0",
    "limit reached",
    "fewer than the limit",
    "nothing to deliver",
    "bundle of 100",
];

/// So many deliveries make a long bundle.
const LONG: u64 = 100;

#[derive(Clone, PartialEq, Eq, Debug, Default)]
pub struct Tally {
    calls: [[u64; ANSWERS]; NAMES.len()],
    cases: [u64; CASES.len()],
    searches: Searches,
    leavers: Leavers,
    reserved: Reserved,
    crashed: Crashed,
    merged: Merged,
    /// Calls that were made on the model too.
    pub on_model: u64,
}

impl Tally {
    /// Takes in a call of a record.
    pub fn count(&mut self, call: Call, answer: Answer, record: &[u8], source: Source) {
        self.calls[call.index()][usize::from(answer.refusal)] += 1;
        self.reserved.count(call, answer, record, source);
        self.crashed.count(call, answer, record, source);
        self.merged.count(call, answer, record, source);
        if let Call::Find { seat, number } = call {
            match answer.refusal {
                0 => self.leavers.count(seat, number, record, source),
                _ => self.searches.count(answer, record),
            }
        }
        if answer.refusal != 0 {
            return;
        }
        let [value, ..] = answer.values;
        let case = match call {
            Call::Deliver(message) => usize::from(message.kind) - 1,
            Call::Find { .. } => 7 + usize::from(value == 255),
            Call::Check => 9 + usize::from(value == 0),
            Call::ReadMessage(_) => 11 + usize::from(value == 0),
            Call::NextMessage(_) => 13 + usize::from(value == 0),
            Call::Bundle { limit } => 15 + bundle_case(limit, value),
            _ => return,
        };
        self.cases[case] += 1;
    }

    pub fn total(&self) -> u64 {
        self.calls.iter().flatten().sum()
    }

    /// The answers that the table allows and that were never met, or that it
    /// does not allow and that were.
    pub fn gaps(&self) -> Vec<String> {
        let mut gaps = Vec::new();
        for (index, name) in NAMES.iter().enumerate() {
            for (answer, &count) in self.calls[index].iter().enumerate() {
                let allowed = answer == 0 || REFUSALS[index].contains(&(answer as u8));
                match (allowed, count) {
                    (true, 0) => gaps.push(format!("{name} never met {answer}")),
                    (false, 1..) => gaps.push(format!("{name} met {answer}")),
                    _ => {}
                }
            }
        }
        let never = CASES
            .iter()
            .zip(self.cases)
            .filter(|(_, count)| *count == 0);
        gaps.extend(never.map(|(case, _)| format!("{case} never met")));
        gaps.extend(self.searches.gaps());
        gaps.extend(self.leavers.gaps());
        gaps.extend(self.reserved.gaps());
        gaps.extend(self.crashed.gaps());
        gaps.extend(self.merged.gaps());
        gaps
    }
}

/// Which of the cases of an accepted bundle it is.
fn bundle_case(limit: u16, delivered: u64) -> usize {
    match delivered {
        0 if limit == 0 => 0,
        0 => 3,
        LONG.. => 4,
        _ if delivered == u64::from(limit) => 1,
        _ => 2,
    }
}

/// A line for each call: how often it was accepted, and each refusal.
impl fmt::Display for Tally {
    fn fmt(&self, f: &mut fmt::Formatter) -> fmt::Result {
        for (index, name) in NAMES.iter().enumerate() {
            let counts = &self.calls[index];
            write!(f, "{name:14} {:>9} accepted", counts[0])?;
            for &refusal in REFUSALS[index] {
                write!(f, "  no {refusal}: {}", counts[usize::from(refusal)])?;
            }
            writeln!(f)?;
        }
        write!(f, "of these")?;
        for (case, count) in CASES.iter().zip(self.cases) {
            write!(f, "  {case}: {count}")?;
        }
        writeln!(f)?;
        write!(f, "{}{}", self.searches, self.leavers)?;
        write!(f, "{}{}{}", self.reserved, self.crashed, self.merged)
    }
}

#[cfg(test)]
mod tests {
    use super::*;
    use crate::round::opened;
    use compare::lent::{self, place::PHASE_AT};

    /// Lots 100, 200 and 300 with vector 0 on seats 0 to 2, settled.
    pub(super) fn three_lots() -> Vec<u8> {
        let mut record = opened();
        for (seat, contact) in [(0, 255), (1, 0), (2, 0)] {
            let number = 100 + 100 * u64::from(seat);
            lent::join(&mut record, seat, number, 0, contact).expect("the seat is free");
        }
        lent::bundle(&mut record, u16::MAX).expect("the record is sound");
        record
    }

    /// The cases of a record of calls that are gaps before, and not after.
    pub(super) fn closed(before: Vec<String>, after: Vec<String>) -> Vec<String> {
        let closed = before.into_iter().filter(|gap| !after.contains(gap));
        let prefix = "calls of a record of calls never met ";
        closed.map(|gap| gap.replace(prefix, "")).collect()
    }

    #[test]
    fn gaps_are_answers_that_the_table_allows_and_others() {
        let (mut tally, record) = (Tally::default(), opened());
        let mut count = |call, answer| {
            tally.count(call, answer, &record, Source::Calls);
            tally.gaps()
        };
        let searches = Searches::default().gaps().len() + Leavers::default().gaps().len();
        let cases = Reserved::default().gaps().len() + Crashed::default().gaps().len();
        let cases = cases + Merged::default().gaps().len();
        let allowed: usize = REFUSALS.iter().map(|rows| rows.len() + 1).sum();
        let all = allowed + CASES.len() + searches + cases;
        assert_eq!(count(Call::Turn, Answer::refused(11)).len(), all - 1);
        let yes = Answer::accepted([1, 0, 0, 0, 0]);
        assert_eq!(count(Call::Check, yes).len(), all - 3);
        let met = count(Call::Turn, Answer::refused(5));
        assert!(met.contains(&String::from("turn met 5")));
    }

    /// A lot, then a leaver, then clearing.
    #[test]
    fn searches_are_told_apart_by_the_record() {
        let (mut tally, mut record) = (Tally::default(), opened());
        let find = Call::Find { seat: 0, number: 7 };
        lent::join(&mut record, 0, 7, 0, 255).expect("the seat is free");
        let searched = |tally: &Tally| [tally.searches.gaps(), tally.leavers.gaps()].concat();
        let mut count = |record: &mut [u8]| {
            let before = searched(&tally);
            tally.count(find, find.on_bytes(record), record, Source::Calls);
            let after = searched(&tally);
            let met = before.into_iter().filter(|gap| !after.contains(gap));
            met.collect::<Vec<_>>()
        };
        assert!(count(&mut record).is_empty());
        lent::leave(&mut record, 0).expect("the lot stays");
        let accepted = |case| format!("find of a record of calls never accepted {case}");
        let cases = [
            "with a leaver",
            "from a leaver",
            "past one leaver",
            "past leavers to none",
        ];
        assert_eq!(count(&mut record), cases.map(accepted));
        record[PHASE_AT] = 1;
        assert_eq!(count(&mut record), ["find never met 13 by Clearing"]);
    }
}
