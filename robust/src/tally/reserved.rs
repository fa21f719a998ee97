//! What calls met of reserved lots, by where the record comes from, and the ways in
//! which reserved lots made a record unsound.

use super::cases::Cases;
use super::leavers::Source;
use compare::call::{Answer, Call};
use compare::reserved::{self, Met, Unsound};
use std::collections::BTreeMap;
use std::fmt;

#[derive(Clone, PartialEq, Eq, Debug, Default)]
pub struct Reserved {
    met: Cases<Met>,
    unsound: BTreeMap<Unsound, u64>,
}

impl Reserved {
    /// Takes in a call of a record.
    pub fn count(&mut self, call: Call, answer: Answer, record: &[u8], source: Source) {
        let met = reserved::met(call, answer, record);
        self.met.count(met, source);
        if answer.refusal == 2 {
            if let Some(way) = Unsound::of_bytes(record) {
                *self.unsound.entry(way).or_default() += 1;
            }
        }
    }

    /// What was never met.
    pub fn gaps(&self) -> Vec<String> {
        let mut gaps = self.met.gaps(&reserved::all());
        let never = Unsound::ALL.iter();
        let never = never.filter(|way| !self.unsound.contains_key(way));
        gaps.extend(never.map(|way| format!("no record was unsound by {way:?}")));
        gaps
    }
}

/// A line for each source with the rarest case, and one for unsound records.
impl fmt::Display for Reserved {
    fn fmt(&self, f: &mut fmt::Formatter) -> fmt::Result {
        self.met.write(f, "reserved lots", &reserved::all())?;
        write!(f, "unsound by reserved lots")?;
        for (way, count) in &self.unsound {
            write!(f, "  {way:?}: {count}")?;
        }
        writeln!(f)
    }
}

#[cfg(test)]
mod tests {
    use super::*;
    use crate::round::opened;
    use compare::lent::place::{ENTRIES_AT, LINKS_AT, STATE_AT};

    /// What a call adds to what was met, by the gaps that it closes.
    fn closes(call: Call, record: &[u8], source: Source) -> Vec<String> {
        let (mut reserved, before) = (Reserved::default(), Reserved::default().gaps());
        reserved.count(call, call.on_bytes(&mut record.to_vec()), record, source);
        let gaps = reserved.gaps();
        before
            .into_iter()
            .filter(|gap| !gaps.contains(gap))
            .collect()
    }

    #[test]
    fn calls_are_told_apart_by_the_source() {
        let mut record = opened();
        let free = closes(Call::GiveBack { seat: 0 }, &record, Source::Calls);
        let gaps = [
            "Answered(\"give_back\", 14, false, false)",
            "NotReserved(\"give_back\", 0)",
        ];
        assert_eq!(
            free,
            gaps.map(|gap| format!("calls of a record of calls never met {gap}"))
        );
        record[ENTRIES_AT + STATE_AT] = 3;
        let read = closes(Call::ReadLot { seat: 0 }, &record, Source::Damage);
        let gaps = ["SeatReserved(\"read_lot\", 0)", "NumberAndVector0"];
        assert_eq!(
            read,
            gaps.map(|gap| format!("calls of a damaged record never met {gap}"))
        );
    }

    #[test]
    fn unsound_records_are_told_apart() {
        let mut record = opened();
        record[ENTRIES_AT + STATE_AT] = 3;
        record[ENTRIES_AT + LINKS_AT] = 0;
        let linked = closes(Call::Validate, &record, Source::Damage);
        assert_eq!(linked, ["no record was unsound by HasLink"]);
        record[ENTRIES_AT + STATE_AT] = 1;
        assert!(closes(Call::Validate, &record, Source::Damage).is_empty());
    }
}
