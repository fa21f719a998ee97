//! Checks of several components that do not say what document 02, #106, says.

use super::{Fault, Model};
use crate::graph::{components, links, links_within};

#[derive(Clone, Copy, PartialEq, Eq, Debug)]
pub(crate) enum WrongCheck {
    /// As before #106.
    WantsOneList,
    /// Only the component of the first seat is asked.
    FirstComponentAsked,
    /// Several components are never asked.
    SeveralPass,
}

impl Model {
    /// What a check with a fault says; the right answer without one.
    pub(super) fn wrong_check(&self, right: bool) -> bool {
        let Some(Fault::Check(wrong)) = self.fault else {
            return right;
        };
        let (members, held) = (self.members(), self.member_links());
        let components = components(&members, &held);
        match wrong {
            WrongCheck::WantsOneList => held == links(&members),
            WrongCheck::FirstComponentAsked => {
                let graphs = links_within(&members, &components);
                let lots = components.iter().zip(graphs.iter().zip(&held));
                let mut first = lots.filter(|(component, _)| **component == components[0]);
                first.all(|(_, (graph, held))| graph == held)
            }
            WrongCheck::SeveralPass => {
                right || components.iter().any(|&other| other != components[0])
            }
        }
    }
}
