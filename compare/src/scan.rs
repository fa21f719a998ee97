//! What a search of a settled record has to answer, by the numbers, vectors and
//! states of the seated lots of its start's component alone. No link is read but to
//! tell which lots these are: those of a level with the same first bits are one list,
//! and a walk along it passes those between.

use crate::graph::{components, first_bits, Member, LEVELS};
use crate::lent;
use crate::model::{Found, Model, State};

/// A search from a lot, told in its parts.
#[derive(Clone, Copy, PartialEq, Eq, Debug)]
pub struct Scan {
    /// The staying lot with the largest number not above the scanned one, of the
    /// start's component.
    pub holder: Option<u8>,
    /// Of the walk; fewer than the lots.
    pub moves: u32,
    /// Whether the walk ends above the scanned number.
    pub ends_above: bool,
    /// The leaving lots not above the scanned number that lie above the holder,
    /// or all of them where there is none.
    pub leavers: u32,
}

impl Scan {
    /// From the lot on a seat of these, which are one component; none if there is no
    /// such lot.
    pub fn of(lots: &[(Member, State)], start: u8, scanned: u64) -> Option<Scan> {
        let mut members = lots.iter().map(|(member, _)| member);
        let start = members.find(|member| member.seat == start)?;
        let (end, moves) = walk(lots, start, scanned);
        let not_above = || lots.iter().filter(|(lot, _)| lot.number <= scanned);
        let staying = not_above().filter(|(_, state)| *state == State::Staying);
        let holder = staying.map(|(lot, _)| lot).max_by_key(|lot| lot.number);
        let above_holder = |lot: &Member| holder.is_none_or(|holder| holder.number < lot.number);
        let leavers = not_above().filter(|(lot, _)| above_holder(lot)).count() as u32;
        Some(Scan {
            holder: holder.map(|holder| holder.seat),
            moves,
            ends_above: end.number > scanned,
            leavers,
        })
    }

    /// Of a settled record, whose members are its seated lots.
    pub fn of_model(model: &Model, start: u8, scanned: u64) -> Option<Scan> {
        let members: Vec<Member> = model.members();
        let components = components(&members, &model.member_links());
        let place = members.iter().position(|member| member.seat == start)?;
        let both = members.into_iter().zip(&components);
        let beside = both.filter(|(_, component)| **component == components[place]);
        let lots = beside.filter_map(|(member, _)| {
            let lot = model.lot(member.seat).ok()?;
            Some((member, lot.state))
        });
        Scan::of(&lots.collect::<Vec<_>>(), start, scanned)
    }

    /// Of the bytes of a sound record.
    pub fn of_bytes(bytes: &[u8], start: u8, scanned: u64) -> Option<Scan> {
        Scan::of_model(&lent::from_bytes(bytes)?, start, scanned)
    }

    /// The steps to the left after the walk, each onto another lot; fewer than the
    /// lots. A walk that does not end above has stepped onto the first of the lots
    /// not above already.
    pub fn steps(&self) -> u32 {
        let onto = self.leavers + u32::from(self.holder.is_some());
        onto - u32::from(!self.ends_above)
    }

    pub fn found(&self) -> Found {
        Found {
            holder: self.holder,
            hops: self.moves + self.steps(),
        }
    }
}

/// Where the walk ends, and its moves: at each level it passes the lots of its
/// list as far as the scanned number.
fn walk<'a>(lots: &'a [(Member, State)], start: &'a Member, scanned: u64) -> (&'a Member, u32) {
    let (mut at, mut moves) = (start, 0);
    for level in (0..LEVELS).rev() {
        let from = at;
        let between = from.number.min(scanned)..=from.number.max(scanned);
        let is_passed = |lot: &&Member| {
            lot.number != from.number
                && between.contains(&lot.number)
                && first_bits(lot.vector, level) == first_bits(from.vector, level)
        };
        let passed = || lots.iter().map(|(lot, _)| lot).filter(is_passed);
        moves += passed().count() as u32;
        let last = passed().min_by_key(|lot| lot.number.abs_diff(scanned));
        at = last.unwrap_or(from);
    }
    (at, moves)
}
