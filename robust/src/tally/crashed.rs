//! What calls met of crashes and of several components, by where the record comes
//! from, and crashes that left a link of which one end knows nothing.

use super::cases::Cases;
use super::leavers::Source;
use compare::call::{Answer, Call};
use compare::crashed::{self, Met};
use std::fmt;

#[derive(Clone, PartialEq, Eq, Debug, Default)]
pub struct Crashed {
    met: Cases<Met>,
    one_sided: u64,
}

impl Crashed {
    /// Takes in a call of a record.
    pub fn count(&mut self, call: Call, answer: Answer, record: &[u8], source: Source) {
        let met = crashed::met(call, answer, record);
        self.met.count(met, source);
        if let (Call::Crash { seats: seats @ 1.. }, 0) = (call, answer.refusal) {
            self.one_sided += u64::from(crashed::leaves_one_sided(record, seats));
        }
    }

    /// What was never met.
    pub fn gaps(&self) -> Vec<String> {
        let mut gaps = self.met.gaps(&crashed::all());
        if self.one_sided == 0 {
            gaps.push(String::from("no crash left a link of one end"));
        }
        gaps
    }
}

/// A line for each source with the rarest case, and one for links of one end.
impl fmt::Display for Crashed {
    fn fmt(&self, f: &mut fmt::Formatter) -> fmt::Result {
        let what = "crashes and components";
        self.met.write(f, what, &crashed::all())?;
        writeln!(f, "crashes that left a link of one end: {}", self.one_sided)
    }
}

#[cfg(test)]
mod tests {
    use super::*;
    use crate::tally::tests::{closed, three_lots};
    use compare::lent;
    use compare::lent::place::{link_at, ENTRIES_AT, ENTRY, NO_LINK};

    /// What a call adds to what was met, by the gaps that it closes.
    fn closes(call: Call, record: &[u8]) -> Vec<String> {
        let (mut crashed, before) = (Crashed::default(), Crashed::default().gaps());
        let answer = call.on_bytes(&mut record.to_vec());
        crashed.count(call, answer, record, Source::Calls);
        closed(before, crashed.gaps())
    }

    #[test]
    fn crashes_are_told_apart() {
        let record = three_lots();
        let nobody = ["Answered(0, false, false)", "OfNobody(0)"];
        assert_eq!(closes(Call::Crash { seats: 0 }, &record), nobody);
        let middle = [
            "Answered(0, false, false)",
            "Crash(Cut)",
            "Crash(NothingSent)",
        ];
        assert_eq!(closes(Call::Crash { seats: 0b010 }, &record), middle);
        let free = ["Answered(8, false, false)", "EmptySeat(0)"];
        assert_eq!(closes(Call::Crash { seats: 0b1010 }, &record), free);
        assert!(closes(Call::Check, &record).is_empty());
    }

    #[test]
    fn calls_beside_several_components_are_told_apart() {
        let mut record = three_lots();
        lent::crash(&mut record, 0b010).expect("the record is at rest");
        let search = |seat, number| closes(Call::Find { seat, number }, &record);
        assert_eq!(
            search(0, 350),
            ["Beside(Holder)", "Beside(NearerElsewhere)"]
        );
        assert_eq!(
            search(2, 250),
            ["Beside(NoHolder)", "Beside(OnlyElsewhere)"]
        );
        assert_eq!(closes(Call::Check, &record), ["Beside(CheckYes)"]);
    }

    #[test]
    fn a_link_of_one_end_is_told_apart() {
        let mut record = three_lots();
        let crash = Call::Crash { seats: 0b100 };
        let one_sided = String::from("no crash left a link of one end");
        assert!(!closes(crash, &record).contains(&one_sided));
        record[ENTRIES_AT + ENTRY + link_at(3, 0)] = NO_LINK;
        assert!(closes(crash, &record).contains(&one_sided));
    }
}
