//! Which lots are joined, on the bytes: by links, and in phase open by pending MEETs,
//! which come to links. In a record made by calls these are the roster's components.

use crate::before::Before;
use crate::graph::SEATS;

/// For each seat the set of seats that it is joined to, itself too; 0 if no lot of
/// those asked for is seated there.
pub struct Joined([u64; SEATS]);

impl Joined {
    /// Among the seated lots that are wanted.
    pub fn of(before: Before, wanted: impl Fn(u8) -> bool) -> Joined {
        let mut joined = Joined::by_links(before, wanted);
        for message in before.meetings() {
            joined.join(message.to, message.about);
        }
        joined
    }

    /// By links alone.
    pub fn by_links(before: Before, wanted: impl Fn(u8) -> bool) -> Joined {
        let mut joined = Joined([0; SEATS]);
        for seat in before.seated().filter(|&seat| wanted(seat)) {
            joined.0[usize::from(seat)] = 1 << seat;
        }
        for seat in before.seated() {
            // Bytes that are not sound may have others.
            let is_seat = |link: &&u8| usize::from(**link) < SEATS;
            for &link in before.links(seat).iter().filter(is_seat) {
                joined.join(seat, link);
            }
        }
        joined
    }

    fn join(&mut self, one: u8, other: u8) {
        let (one, other) = (self.0[usize::from(one)], self.0[usize::from(other)]);
        if one == other || one == 0 || other == 0 {
            return;
        }
        let both = one | other;
        for (seat, set) in self.0.iter_mut().enumerate() {
            if both >> seat & 1 == 1 {
                *set = both;
            }
        }
    }

    /// The seats that a seat is joined to.
    pub fn to(&self, seat: u8) -> u64 {
        self.0[usize::from(seat)]
    }

    /// Each component once, as a set of seats.
    pub fn components(&self) -> Vec<u64> {
        let sets = self.0.iter().enumerate();
        let first = sets.filter(|(seat, set)| **set != 0 && set.trailing_zeros() as usize == *seat);
        first.map(|(_, set)| *set).collect()
    }
}

#[cfg(test)]
mod tests {
    use super::*;
    use crate::lent;
    use crate::list;
    use crate::model::Model;
    use crate::roster::Roster;

    /// After every call, in both phases.
    #[test]
    fn they_are_the_rosters_components() {
        let mut several = 0;
        for index in 0..200 {
            let mut roster = Roster::new();
            let mut record = lent::to_bytes(&Model::open());
            for call in list::generate(6, index, 120) {
                if call.on_bytes(&mut record).refusal == 0 {
                    roster.accept(call);
                }
                let joined = Joined::of(Before { record: &record }, |_| true);
                for (lot, _) in roster.seated() {
                    let beside = roster.beside(lot.seat).into_iter();
                    let beside = beside.fold(0, |set, (lot, _)| set | 1 << lot.seat);
                    assert_eq!(joined.to(lot.seat), beside, "list {index}, {call:?}");
                }
                several += usize::from(joined.components().len() > 1);
            }
        }
        assert!(several > 1_000, "{several}");
    }
}
