//! The marks of searches: how `F` is answered, from where, and past how many
//! leaving lots.

use super::{is_pending, states, Mark, Reach};
use crate::graph::SEATS;
use crate::model::{Model, Phase, Refusal, State};
use crate::scan::Scan;
use crate::text::Answer;

/// The last is once along the longest list and back again.
const HOPS: [u32; 6] = [0, 1, 2, 10, 63, 126];
/// Leaving lots in a row that one search goes past; 64 when nobody stays.
const PASSED: [u32; 5] = [1, 2, 10, 63, 64];

/// Every mark of searches that a script can reach.
pub(super) fn all() -> Vec<Mark> {
    use Mark::*;
    let mut all = vec![SearchFromAll, SearchFor(0), SearchFor(u64::MAX), Nobody];
    all.extend([SearchWithLeaver, SearchFromLeaver, SearchForLeaver]);
    all.extend([StartPassed, NeighbourOfEndPassed, NobodyStays]);
    all.extend((0..SEATS as u8).map(Holder));
    all.extend(HOPS.map(Hops));
    all.extend(PASSED.map(LeaversPassed));
    all.extend(refused());
    all
}

/// 3 and 8 come before 13, whatever the record; 13 only where it is not settled.
fn refused() -> Vec<Mark> {
    let mut marks = Vec::new();
    for (clearing, pending) in [(false, false), (false, true), (true, false), (true, true)] {
        let rows = [3, 8, 13].into_iter();
        let rows = rows.filter(|&row| row != 13 || clearing || pending);
        marks.extend(rows.map(|row| Mark::SearchRefused(row, clearing, pending)));
    }
    marks
}

impl Reach {
    pub(super) fn refused_search(&mut self, refusal: Refusal, before: &Model) {
        let clearing = before.phase() == Phase::Clearing;
        self.note(Mark::SearchRefused(
            refusal.number(),
            clearing,
            is_pending(before),
        ));
    }

    pub(super) fn search(&mut self, start: u8, number: u64, answer: &Answer, before: &Model) {
        let Answer::Found(found) = answer else {
            return;
        };
        self.note_if(number == 0 || number == u64::MAX, Mark::SearchFor(number));
        for (seat, _) in states(before).filter(|&(_, state)| state == State::Leaving) {
            self.note(Mark::SearchWithLeaver);
            self.note_if(seat == start, Mark::SearchFromLeaver);
        }
        self.note(found.holder.map_or(Mark::Nobody, Mark::Holder));
        self.note_if(HOPS.contains(&found.hops), Mark::Hops(found.hops));
        self.starts.insert(start);
        self.note_if(self.starts.len() == SEATS, Mark::SearchFromAll);
        if let Some(scan) = Scan::of_model(before, start, number) {
            self.leavers_passed(scan, number, before);
        }
    }

    fn leavers_passed(&mut self, scan: Scan, number: u64, before: &Model) {
        if scan.leavers == 0 {
            return;
        }
        self.note_sizes(&PASSED, scan.leavers, Mark::LeaversPassed);
        let has_number = before.seated().any(|(_, lot)| lot.number == number);
        self.note_if(has_number, Mark::SearchForLeaver);
        self.note_if(scan.ends_above, Mark::NeighbourOfEndPassed);
        self.note_if(!scan.ends_above && scan.moves == 0, Mark::StartPassed);
        self.note_if(scan.holder.is_none(), Mark::NobodyStays);
    }
}
