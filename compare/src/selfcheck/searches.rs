//! How often `F` met each answer.

use crate::scan::Scan;
use crate::text::Answer;
use std::collections::BTreeMap;
use std::fmt;

#[derive(Clone, PartialEq, Eq, Debug, Default)]
pub struct Searches {
    holder: Accepted,
    none: Accepted,
    /// Of all accepted ones together.
    hops: u64,
    /// By the refusal's number.
    refused: BTreeMap<u8, usize>,
}

#[derive(Clone, PartialEq, Eq, Debug, Default)]
struct Accepted {
    searches: usize,
    /// Those of them that came to a leaving lot first.
    past_leavers: usize,
}

impl Searches {
    /// Takes in the answer to one `F`, and what it has to be if it starts from a
    /// lot of a settled record.
    pub fn count(&mut self, answer: &Answer, scan: Option<Scan>) {
        match answer {
            Answer::Found(found) => {
                self.hops += u64::from(found.hops);
                let accepted = match found.holder {
                    Some(_) => &mut self.holder,
                    None => &mut self.none,
                };
                let past_leavers = scan.is_some_and(|scan| scan.leavers > 0);
                accepted.searches += 1;
                accepted.past_leavers += usize::from(past_leavers);
            }
            Answer::No(refusal) => *self.refused.entry(refusal.number()).or_default() += 1,
            _ => {}
        }
    }

    pub fn add(&mut self, other: &Searches) {
        self.holder.add(&other.holder);
        self.none.add(&other.none);
        self.hops += other.hops;
        for (&refusal, count) in &other.refused {
            *self.refused.entry(refusal).or_default() += count;
        }
    }
}

impl Accepted {
    fn add(&mut self, other: &Accepted) {
        self.searches += other.searches;
        self.past_leavers += other.past_leavers;
    }
}

impl fmt::Display for Searches {
    fn fmt(&self, f: &mut fmt::Formatter) -> fmt::Result {
        for (name, accepted) in [("holder", &self.holder), ("none", &self.none)] {
            let Accepted {
                searches,
                past_leavers,
            } = accepted;
            write!(f, "{searches} {name} ({past_leavers} past leavers), ")?;
        }
        write!(f, "{} hops", self.hops)?;
        let mut refused = self.refused.iter();
        refused.try_for_each(|(refusal, count)| write!(f, ", no {refusal}: {count}"))
    }
}
