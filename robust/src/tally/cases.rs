//! Cases that calls met, by where the record comes from.

use super::leavers::{Source, SOURCES};
use std::collections::{BTreeMap, BTreeSet};
use std::fmt::{self, Debug};

#[derive(Clone, PartialEq, Eq, Debug)]
pub struct Cases<M> {
    met: [BTreeMap<M, u64>; SOURCES.len()],
}

impl<M> Default for Cases<M> {
    fn default() -> Cases<M> {
        let met = [const { BTreeMap::new() }; SOURCES.len()];
        Cases { met }
    }
}

impl<M: Ord + Copy + Debug> Cases<M> {
    pub fn count(&mut self, met: Vec<M>, source: Source) {
        for met in met {
            *self.met[source as usize].entry(met).or_default() += 1;
        }
    }

    /// Those of all that were never met.
    pub fn gaps(&self, all: &BTreeSet<M>) -> Vec<String> {
        let mut gaps = Vec::new();
        for (source, counts) in SOURCES.iter().zip(&self.met) {
            let never = all.iter().filter(|met| !counts.contains_key(met));
            gaps.extend(never.map(|met| format!("calls of {source} never met {met:?}")));
        }
        gaps
    }

    /// A line for each source, with the rarest case.
    pub fn write(&self, f: &mut fmt::Formatter, what: &str, all: &BTreeSet<M>) -> fmt::Result {
        for (source, counts) in SOURCES.iter().zip(&self.met) {
            let (cases, all) = (counts.len(), all.len());
            write!(f, "{what} of {source:17} {cases} of {all} cases")?;
            let rarest = counts.iter().min_by_key(|(_, count)| **count);
            if let Some((met, count)) = rarest {
                write!(f, ", the rarest {met:?}: {count}")?;
            }
            writeln!(f)?;
        }
        Ok(())
    }
}
