//! What calls met of merges, by where the record comes from.

use super::cases::Cases;
use super::leavers::Source;
use compare::call::{Answer, Call};
use compare::merged::{self, Met};
use std::fmt;

#[derive(Clone, PartialEq, Eq, Debug, Default)]
pub struct Merged {
    met: Cases<Met>,
}

impl Merged {
    /// Takes in a call of a record.
    pub fn count(&mut self, call: Call, answer: Answer, record: &[u8], source: Source) {
        self.met.count(merged::met(call, answer, record), source);
    }

    /// What was never met.
    pub fn gaps(&self) -> Vec<String> {
        self.met.gaps(&merged::all())
    }
}

/// A line for each source with the rarest case.
impl fmt::Display for Merged {
    fn fmt(&self, f: &mut fmt::Formatter) -> fmt::Result {
        self.met.write(f, "merges", &merged::all())
    }
}

#[cfg(test)]
mod tests {
    use super::*;
    use crate::tally::tests::{closed, three_lots};
    use compare::lent;

    fn closes(call: Call, record: &[u8]) -> Vec<String> {
        let (mut merged, before) = (Merged::default(), Merged::default().gaps());
        let answer = call.on_bytes(&mut record.to_vec());
        merged.count(call, answer, record, Source::Calls);
        closed(before, merged.gaps())
    }

    fn merge(first: u8, second: u8) -> Call {
        Call::Merge { first, second }
    }

    #[test]
    fn merges_are_told_apart() {
        let mut record = three_lots();
        let within = [
            "Answered(0, false, false)",
            "Merge(Within)",
            "Merge(Linked)",
            "Merge(Below)",
            "Merge(Shares(8))",
        ];
        assert_eq!(closes(merge(1, 2), &record), within);
        lent::crash(&mut record, 0b010).expect("the record is at rest");
        let alone = [
            "Answered(0, false, false)",
            "Merge(OfTwo)",
            "Merge(Alone)",
            "Merge(Above)",
            "Merge(Seat(0))",
            "Merge(Shares(8))",
        ];
        assert_eq!(closes(merge(2, 0), &record), alone);
        lent::merge(&mut record, 0, 2).expect("the lots are seated");
        assert!(closes(merge(0, 2), &record).contains(&String::from("Merge(Again)")));
        let met = closes(merge(2, 0), &record);
        assert!(met.contains(&String::from("Merge(TheOtherWay)")));
        assert!(met.contains(&String::from("Merge(WithinByMeetings)")));
    }

    #[test]
    fn refused_merges_are_told_apart() {
        let record = three_lots();
        let same = ["Answered(15, false, false)", "SameLot(1)"];
        assert_eq!(closes(merge(1, 1), &record), same);
        let empty = ["Answered(8, false, false)", "EmptySeat(Second, 0)"];
        assert_eq!(closes(merge(1, 9), &record), empty);
        let twice = [
            "Answered(8, false, false)",
            "Before(8, 15)",
            "EmptyTwice(0)",
        ];
        assert_eq!(closes(merge(9, 9), &record), twice);
        let no_seat = ["Answered(3, false, false)", "Before(3, 8)", "NoSeat(First)"];
        assert_eq!(closes(merge(64, 9), &record), no_seat);
        assert!(closes(Call::Check, &record).is_empty());
    }
}
