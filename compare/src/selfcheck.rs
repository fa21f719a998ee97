//! Runs a script, or a list of calls, on the model and checks the model as it
//! goes: against the roster and the table after every line or call, and against
//! the graph of the members, made within each component; components by links and
//! pending MEETs against the roster's, bundles against single deliveries, joins against
//! reservations, and crashes and merges against what is left once all is delivered.

mod bundles;
mod crash;
mod drained;
mod joining;
mod merge;
mod searches;

use crate::call::{Answer, Call};
use crate::graph::{components, links_within, Links, Member};
use crate::model::{Message, Model, Refusal};
use crate::reach::{Mark, Reach};
use crate::roster::Roster;
use crate::scan::Scan;
use crate::text::{self, Command};
use std::collections::BTreeSet;

pub use searches::Searches;

/// More deliveries than this in a row count as a run without end. The longest
/// that a script has met is about 66,000, on a full record.
pub const MOST_DELIVERIES: u64 = 1_000_000;

/// A check that failed.
#[derive(Clone, PartialEq, Eq, Debug)]
pub struct Failure {
    /// Of a script, or the call of a list; counted from 1.
    pub line: usize,
    pub what: &'static str,
}

/// What a checked run gave.
#[derive(Clone, PartialEq, Eq, Debug, Default)]
pub struct Run {
    pub output: Vec<u8>,
    pub lines: usize,
    pub deliveries: u64,
    pub searches: Searches,
    /// What the script reached.
    pub marks: BTreeSet<Mark>,
}

/// Runs an input on a fresh model.
pub fn run(input: &[u8]) -> Result<Run, Failure> {
    run_on(Model::open(), input)
}

/// Runs an input on a given empty model.
pub(crate) fn run_on(model: Model, input: &[u8]) -> Result<Run, Failure> {
    let mut checked = Checked::new(model);
    let mut run = Run::default();
    let mut reach = Reach::of_input(input);
    for line in text::lines(input) {
        run.lines += 1;
        let failure = |what| Failure {
            line: run.lines,
            what,
        };
        let command = text::parse(line);
        let deliveries = checked.count_deliveries(command).map_err(failure)?;
        let before = checked.model.clone();
        let answer = checked.line(command, &before).map_err(failure)?;
        if checked.model != before {
            let limits = bundles::limits(run.lines);
            bundles::check(&checked.model, limits).map_err(failure)?;
        }
        if let Some(Command::Find { start, number }) = command {
            let scan = Scan::of_model(&before, start, number);
            run.searches.count(&answer, scan);
        }
        reach.line(line, &answer, &before, &checked.model, deliveries);
        answer.print(&mut run.output);
        run.deliveries += deliveries;
    }
    run.marks = reach.marks();
    Ok(run)
}

/// Runs a list of calls on a fresh model.
pub fn run_list(list: &[Call]) -> Result<(), Failure> {
    run_list_beside(Roster::new(), Model::open(), list)
}

/// Runs a list of calls on a given empty model beside a given empty roster.
pub(crate) fn run_list_beside(roster: Roster, model: Model, list: &[Call]) -> Result<(), Failure> {
    let mut checked = Checked { model, roster };
    (1..).zip(list).try_for_each(|(line, &call)| {
        let before = checked.model.clone();
        let answer = call.on_model(&mut checked.model);
        let checked = checked.call(call, answer, &before);
        checked.map_err(|what| Failure { line, what })
    })
}

struct Checked {
    model: Model,
    roster: Roster,
}

type Check = Result<(), &'static str>;

fn holds(condition: bool, what: &'static str) -> Check {
    if condition {
        Ok(())
    } else {
        Err(what)
    }
}

impl Checked {
    fn new(model: Model) -> Checked {
        let roster = Roster::new();
        Checked { model, roster }
    }

    /// The deliveries that a line will make; fails when they do not end, or when
    /// bundles make others.
    fn count_deliveries(&self, command: Option<Command>) -> Result<u64, &'static str> {
        match command {
            Some(Command::Deliver(message)) => Ok(self.model.is_pending(message).into()),
            Some(Command::Settle) => {
                let mut settled = self.model.clone();
                let deliveries = settled.settle_within(MOST_DELIVERIES);
                let deliveries = deliveries.ok_or("deliveries do not end")?;
                bundles::check_settling(&self.model, &settled, deliveries)?;
                Ok(deliveries)
            }
            _ => Ok(0),
        }
    }

    fn line(
        &mut self,
        command: Option<Command>,
        before: &Model,
    ) -> Result<text::Answer, &'static str> {
        let answer = text::answer(&mut self.model, command);
        match command {
            None => holds(self.model == *before, "a bad line changed the record")?,
            Some(Command::Print) => holds(self.model == *before, "printing changed the record")?,
            Some(command) => match command.call() {
                Some(call) => self.call(call, answer.numbers(), before)?,
                None => self.changed_record()?,
            },
        }
        Ok(answer)
    }

    fn call(&mut self, call: Call, answer: Answer, before: &Model) -> Check {
        let expected = self.roster.refusal(call, before.pending());
        let expected = expected.map_or(0, Refusal::number);
        holds(answer.refusal == expected, "not the table's refusal")?;
        if expected != 0 {
            return holds(self.model == *before, "a refused call changed the record");
        }
        self.roster.accept(call);
        if call.changes_bytes() {
            self.changed_record()?;
        } else {
            holds(self.model == *before, "a reading call changed the record")?;
        }
        match call {
            Call::Deliver(message) => self.delivery(message, before),
            Call::Bundle { limit } => bundles::check_call(before, limit, answer, &self.model),
            Call::Find { seat, number } => self.search(seat, number, answer),
            Call::Crash { seats } => crash::check(seats, before, &self.model),
            Call::Merge { first, second } => merge::check(first, second, before, &self.model),
            _ => joining::check(call, before, &self.model),
        }
    }

    /// A delivery changes no entry but that of `to`, and takes away no other
    /// message.
    fn delivery(&self, message: Message, before: &Model) -> Check {
        let others = |model: &Model| -> Vec<_> {
            let other = |(seat, _): &(u8, &_)| *seat != message.to;
            let lots = model.taken().filter(other);
            lots.map(|(seat, lot)| (seat, lot.clone())).collect()
        };
        holds(
            others(before) == others(&self.model),
            "a delivery changed another lot's entry",
        )?;
        let kept = |m: &Message| *m == message || self.model.is_pending(*m);
        holds(
            before.pending().iter().all(kept),
            "a delivery took another message away",
        )
    }

    fn changed_record(&mut self) -> Check {
        holds(self.model.is_sound(), "the record is not sound")?;
        holds(
            self.roster.agrees_with(&mut self.model),
            "readings are not the roster's",
        )?;
        let members = self.roster.members();
        holds(
            self.model.members() == members,
            "the members are not the roster's",
        )?;
        holds(
            self.roster.joined() == drained::joined(&self.model),
            "components by links and MEETs are not the roster's",
        )?;
        if self.model.pending().is_empty() {
            holds(
                self.reads_as(&members, &self.roster.links()),
                "settled links are not the graph of the members",
            )?;
        }
        let components = components(&members, &self.model.member_links());
        let right = self.reads_as(&members, &links_within(&members, &components));
        holds(
            self.model.check() == right,
            "the check is not the definition's",
        )
    }

    /// Whether each link of each member reads as one of these, in the order of the
    /// members.
    fn reads_as(&self, members: &[Member], links: &[Links]) -> bool {
        let reads = |(member, links): (&Member, &Links)| {
            (0u8..).zip(links).all(|(level, pair)| {
                (0u8..)
                    .zip(pair)
                    .all(|(side, &link)| self.model.link(member.seat, level, side) == Ok(link))
            })
        };
        members.iter().zip(links).all(reads)
    }

    fn search(&self, start: u8, scanned: u64, answer: Answer) -> Check {
        let lots = self.roster.beside(start);
        let scan = Scan::of(&lots, start, scanned).ok_or("a search started from no lot")?;
        let right = Answer::found(scan.found());
        let [holder, hops, ..] = right.values;
        holds(
            answer.values[0] == holder,
            "an accepted search gave another lot",
        )?;
        holds(
            answer.values[1] == hops,
            "an accepted search counted other hops",
        )?;
        let most = lots.len() as u32 - 1;
        holds(
            scan.moves <= most && scan.steps() <= most,
            "a search moves or steps left as often as there are lots",
        )
    }
}
