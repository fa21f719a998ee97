//! The components of the roster (document 02, #106 and #107). They are kept from
//! the log alone: no link of a record is read.

use super::{named, Roster};
use crate::graph::{self, Links, Member};
use crate::model::{State, NO_CONTACT};

/// A name that is given once.
pub type Component = usize;

/// Ways to keep components that are wrong.
#[cfg(test)]
#[derive(Clone, Copy, PartialEq, Eq, Debug)]
pub(crate) enum WrongRoster {
    /// A crash leaves them as they were.
    NeverCut,
    /// A merge does.
    NeverUnited,
    /// A merge takes the second lot alone to the first one's.
    SecondAlone,
}

impl Roster {
    /// A newcomer's is its contact's, a first lot's its own.
    pub(super) fn component_through(&mut self, contact: u8) -> Component {
        match contact {
            NO_CONTACT => self.new_component(),
            seat => self.component(seat).expect("the contact is seated"),
        }
    }

    fn new_component(&mut self) -> Component {
        self.components += 1;
        self.components
    }

    /// Nothing was pending, so the record's links were those of the roster's graph:
    /// what is left of them gives the components.
    pub(super) fn crash(&mut self, seats: u64) {
        let members = self.members();
        let links = self.links();
        let is_named = |seat: u8| named(seats).any(|other| other == seat);
        let both = members.into_iter().zip(links);
        let (left, mut links): (Vec<Member>, Vec<Links>) =
            both.filter(|(member, _)| !is_named(member.seat)).unzip();
        for link in links.iter_mut().flatten().flatten() {
            link.take_if(|seat| is_named(*seat));
        }
        self.lots.retain(|&seat, _| !is_named(seat));
        #[cfg(test)]
        if self.wrong == Some(WrongRoster::NeverCut) {
            return;
        }
        if seats != 0 {
            self.name_anew(&left, &graph::components(&left, &links));
        }
    }

    /// All lots of the second's are the first's from now on.
    pub(super) fn merge(&mut self, first: u8, second: u8) {
        let (one, other) = (self.component(first), self.component(second));
        let joins = |_seat: u8| true;
        #[cfg(test)]
        let joins = |seat| match self.wrong {
            Some(WrongRoster::NeverUnited) => false,
            Some(WrongRoster::SecondAlone) => seat == second,
            _ => joins(seat),
        };
        for (seat, lot) in &mut self.lots {
            if lot.component == other && joins(*seat) {
                lot.component = one;
            }
        }
    }

    /// By the smallest seat of each lot's component.
    fn name_anew(&mut self, members: &[Member], smallest: &[u8]) {
        let names: Vec<Component> = members.iter().map(|_| self.new_component()).collect();
        for (member, smallest) in members.iter().zip(smallest) {
            let first = members.iter().position(|member| member.seat == *smallest);
            let name = first.map(|first| names[first]);
            let lot = self.lots.get_mut(&member.seat);
            lot.expect("a member is a lot").component = name;
        }
    }

    fn component(&self, seat: u8) -> Option<Component> {
        self.lots.get(&seat)?.component
    }

    /// The component of each member, in the order of the members.
    pub fn components(&self) -> Vec<Option<Component>> {
        let members = self.members().into_iter();
        members.map(|member| self.component(member.seat)).collect()
    }

    /// Of each seated lot, by seat, the smallest seat of its component.
    pub fn joined(&self) -> Vec<u8> {
        let seated = self.seated();
        let component = |(lot, _): &(Member, State)| self.component(lot.seat);
        let first = |one: &(Member, State)| {
            let mut seated = seated.iter();
            let same = seated.find(|other| component(other) == component(one));
            same.map(|(lot, _)| lot.seat)
        };
        seated.iter().filter_map(first).collect()
    }

    /// The graph of the members, made within each component, in their order.
    pub fn links(&self) -> Vec<Links> {
        graph::links_within(&self.members(), &self.components())
    }

    /// The seated lots of a lot's component with their states, by seat.
    pub fn beside(&self, seat: u8) -> Vec<(Member, State)> {
        let same =
            |(member, _): &(Member, State)| self.component(member.seat) == self.component(seat);
        self.seated().into_iter().filter(same).collect()
    }
}
