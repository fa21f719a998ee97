//! Searches told apart by the record: the refusals that each way of being unsettled
//! met.

use compare::call::Answer;
use compare::unsettled::Unsettled;
use std::fmt;

/// 13, and the rows that come before it on a sound record.
const ROWS: [u8; 3] = [3, 8, 13];

#[derive(Clone, PartialEq, Eq, Debug, Default)]
pub struct Searches {
    /// By the way and the row.
    unsettled: [[u64; ROWS.len()]; Unsettled::ALL.len()],
}

impl Searches {
    /// Takes in a search of a record.
    pub fn count(&mut self, answer: Answer, record: &[u8]) {
        let Some(row) = ROWS.iter().position(|&row| row == answer.refusal) else {
            return;
        };
        let way = Unsettled::of_bytes(record);
        if let Some(way) = Unsettled::ALL.iter().position(|&other| Some(other) == way) {
            self.unsettled[way][row] += 1;
        }
    }

    /// What was never met.
    pub fn gaps(&self) -> Vec<String> {
        let mut gaps = Vec::new();
        for (way, counts) in Unsettled::ALL.iter().zip(self.unsettled) {
            let never = ROWS.iter().zip(counts).filter(|(_, count)| *count == 0);
            gaps.extend(never.map(|(row, _)| format!("find never met {row} by {way:?}")));
        }
        gaps
    }
}

impl fmt::Display for Searches {
    fn fmt(&self, f: &mut fmt::Formatter) -> fmt::Result {
        for (way, counts) in Unsettled::ALL.iter().zip(self.unsettled) {
            write!(f, "find unsettled by {:17}", format!("{way:?}"))?;
            for (row, count) in ROWS.iter().zip(counts) {
                write!(f, "  no {row}: {count}")?;
            }
            writeln!(f)?;
        }
        Ok(())
    }
}
