//! Accepted searches of records in which lots are leaving, told apart by what they
//! go past and by where the record comes from.

use compare::graph::SEATS;
use compare::lent::place::{ENTRIES_AT, ENTRY, STATE_AT};
use compare::model::State;
use compare::scan::Scan;
use std::fmt;

/// Where the record of a call comes from.
#[derive(Clone, Copy, PartialEq, Eq, Debug)]
pub enum Source {
    /// Calls before it, on an opened record or one put together field by field.
    Calls,
    /// Damage done to a copy of such a record.
    Damage,
}

pub(super) const SOURCES: [&str; 2] = ["a record of calls", "a damaged record"];

/// What is to be met with records of each source.
const CASES: [&str; 7] = [
    "with a leaver",
    "from a leaver",
    "past one leaver",
    "past two leavers or more",
    "past leavers to a holder",
    "past leavers to none",
    "past a leaver left of the walk's end",
];

#[derive(Clone, PartialEq, Eq, Debug, Default)]
pub struct Leavers {
    counts: [[u64; CASES.len()]; SOURCES.len()],
}

impl Leavers {
    /// Takes in an accepted search of a record.
    pub fn count(&mut self, seat: u8, number: u64, record: &[u8], source: Source) {
        if !has_leaver(record) {
            return;
        }
        let scan = Scan::of_bytes(record, seat, number).expect("the search is accepted");
        let past = scan.leavers > 0;
        let met = [
            true,
            is_leaving(record, seat),
            scan.leavers == 1,
            scan.leavers >= 2,
            past && scan.holder.is_some(),
            past && scan.holder.is_none(),
            past && scan.ends_above,
        ];
        for (count, is_met) in self.counts[source as usize].iter_mut().zip(met) {
            *count += u64::from(is_met);
        }
    }

    /// What was never met.
    pub fn gaps(&self) -> Vec<String> {
        let mut gaps = Vec::new();
        for (source, counts) in SOURCES.iter().zip(self.counts) {
            let never = CASES.iter().zip(counts).filter(|(_, count)| *count == 0);
            gaps.extend(never.map(|(case, _)| format!("find of {source} never accepted {case}")));
        }
        gaps
    }
}

pub(crate) fn is_leaving(record: &[u8], seat: u8) -> bool {
    record[ENTRIES_AT + ENTRY * usize::from(seat) + STATE_AT] == State::Leaving as u8
}

/// Whether a lot of a record is leaving.
pub(crate) fn has_leaver(record: &[u8]) -> bool {
    (0..SEATS as u8).any(|seat| is_leaving(record, seat))
}

impl fmt::Display for Leavers {
    fn fmt(&self, f: &mut fmt::Formatter) -> fmt::Result {
        for (source, counts) in SOURCES.iter().zip(self.counts) {
            write!(f, "find of {source:17} accepted")?;
            for (case, count) in CASES.iter().zip(counts) {
                write!(f, "  {case}: {count}")?;
            }
            writeln!(f)?;
        }
        Ok(())
    }
}

#[cfg(test)]
mod tests {
    use super::*;
    use crate::tally::tests::three_lots;
    use compare::lent;

    /// Which of the cases a search meets, and no gap is left but for the others.
    fn met(record: &[u8], seat: u8, number: u64) -> Vec<&'static str> {
        let mut leavers = Leavers::default();
        leavers.count(seat, number, record, Source::Damage);
        let [by_calls, by_damage] = leavers.counts;
        assert_eq!(by_calls, [0; CASES.len()]);
        let met = CASES
            .into_iter()
            .zip(by_damage)
            .filter(|(_, count)| *count == 1);
        let met: Vec<&str> = met.map(|(case, _)| case).collect();
        assert_eq!(leavers.gaps().len(), 2 * CASES.len() - met.len());
        met
    }

    #[test]
    fn searches_are_told_apart_by_the_leavers() {
        let [with, from, one, more, holder, none, left_of_end] = CASES;
        let mut record = three_lots();
        assert!(met(&record, 0, 250).is_empty());
        let mut leave = |seat| {
            lent::leave(&mut record, seat).expect("the lot stays");
            record.clone()
        };
        let middle = leave(1);
        assert_eq!(met(&middle, 0, 300), [with]);
        assert_eq!(met(&middle, 0, 250), [with, one, holder]);
        assert_eq!(met(&middle, 1, 250), [with, from, one, holder]);
        assert_eq!(met(&middle, 2, 250), [with, one, holder, left_of_end]);
        let two = leave(2);
        assert_eq!(met(&two, 0, 350), [with, more, holder]);
        let all = leave(0);
        assert_eq!(met(&all, 0, 350), [with, from, more, none]);
        assert_eq!(met(&all, 1, 150), [with, from, one, none, left_of_end]);
        assert_eq!(met(&all, 1, 99), [with, from]);
    }
}
