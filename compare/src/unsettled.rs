//! The ways in which a sound record is not settled, each a reason to refuse a
//! search with 13.

use crate::graph::{components, links_within};
use crate::lent;
use crate::model::{Model, Phase};

#[derive(Clone, Copy, PartialEq, Eq, PartialOrd, Ord, Debug)]
pub enum Unsettled {
    /// Messages are pending in phase open.
    Pending,
    /// The phase is clearing, nothing is pending.
    Clearing,
    PendingInClearing,
    /// The check alone says no, all lots are one component, and a link at level 0 is
    /// wrong.
    Level0,
    /// The same, and no link at level 0 is wrong.
    AboveLevel0,
    /// The check alone says no: of several components one is no skip graph, or more.
    OneOfSeveral,
}

impl Unsettled {
    pub const ALL: [Unsettled; 6] = [
        Unsettled::Pending,
        Unsettled::Clearing,
        Unsettled::PendingInClearing,
        Unsettled::Level0,
        Unsettled::AboveLevel0,
        Unsettled::OneOfSeveral,
    ];

    /// Of the bytes of a sound record; none if it is settled.
    pub fn of_bytes(bytes: &[u8]) -> Option<Unsettled> {
        let counts = lent::read_counts(bytes).ok()?;
        match (counts.phase, counts.pending) {
            (Phase::Open, 0) => Unsettled::by_links(&lent::from_bytes(bytes)?),
            (Phase::Open, _) => Some(Unsettled::Pending),
            (Phase::Clearing, 0) => Some(Unsettled::Clearing),
            (Phase::Clearing, _) => Some(Unsettled::PendingInClearing),
        }
    }

    fn by_links(model: &Model) -> Option<Unsettled> {
        let (members, held) = (model.members(), model.member_links());
        let components = components(&members, &held);
        let right = links_within(&members, &components);
        let mut both = right.iter().zip(&held);
        if right == held {
            None
        } else if components.iter().any(|&other| other != components[0]) {
            Some(Unsettled::OneOfSeveral)
        } else if both.all(|(right, held)| right[0] == held[0]) {
            Some(Unsettled::AboveLevel0)
        } else {
            Some(Unsettled::Level0)
        }
    }
}
