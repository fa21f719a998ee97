//! The search of document 000 from level 8, with document 01's last step and
//! document 02's steps past lots that are leaving (#104).

use crate::graph::{Side, LEVELS};
use crate::rules::Entries;

/// The answer of a search: the holder's seat or none, and the lots stepped onto.
#[derive(Clone, Copy, PartialEq, Eq, Debug)]
pub struct Found {
    pub holder: Option<u8>,
    pub hops: u32,
}

pub(crate) trait Search: Entries {
    /// The search from a seated lot.
    fn search(&self, start: u8, scanned: u64) -> Found {
        let mut found = self.not_above(start, scanned);
        while let Some(leaver) = found.holder.filter(|&lot| self.is_leaving(lot)) {
            found = self.step_left(leaver, found.hops);
        }
        found
    }

    /// The lot with the largest number not above the scanned one, leaving or not.
    fn not_above(&self, start: u8, scanned: u64) -> Found {
        let (end, hops) = self.walk(start, scanned);
        if self.number(end) > scanned {
            return self.step_left(end, hops);
        }
        let holder = Some(end);
        Found { holder, hops }
    }

    /// Where the walk ends, and its moves.
    fn walk(&self, start: u8, scanned: u64) -> (u8, u32) {
        let (mut at, mut moves) = (start, 0);
        for level in (0..LEVELS).rev() {
            while let Some(next) = self.step_toward(at, level, scanned) {
                at = next;
                moves += 1;
            }
        }
        (at, moves)
    }

    /// The next lot of the walk at this level, if that does not overshoot the
    /// scanned number; none at equality.
    fn step_toward(&self, at: u8, level: usize, scanned: u64) -> Option<u8> {
        let here = self.number(at);
        if here == scanned {
            return None;
        }
        let side = Side::toward(here, scanned);
        let next = self.neighbour(at, level, side)?;
        let number = self.number(next);
        let overshoots = match side {
            Side::Right => number > scanned,
            Side::Left => number < scanned,
        };
        (!overshoots).then_some(next)
    }

    /// The left neighbour at level 0; a missing one is no hop.
    fn step_left(&self, from: u8, hops: u32) -> Found {
        let holder = self.neighbour(from, 0, Side::Left);
        let hops = hops + u32::from(holder.is_some());
        Found { holder, hops }
    }
}

impl<E: Entries> Search for E {}
