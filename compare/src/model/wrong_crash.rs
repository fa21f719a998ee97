//! Crashes that send, free or refuse otherwise than document 02, #106, says, and a
//! search that looks beyond its component.

use super::crash::is_in;
use super::{Lot, Message, Model, Phase, State};
use crate::call::{Answer, Call, NO_VALUES};
use crate::graph::{components, Side, LEVELS, SIDES};
use WrongCrash::*;

#[derive(Clone, Copy, PartialEq, Eq, Debug)]
pub(crate) enum WrongCrash {
    /// The links of this level send nothing.
    LevelForgotten(usize),
    /// Only the end with the larger number is told, or with the smaller one.
    EndForgotten(Side),
    /// Components that lost nobody send nothing.
    UntouchedForgotten,
    /// At the level of the link.
    SentAtItsLevel,
    /// For links at level 0 too.
    Level0Sends,
    /// A link to a freed seat at this level and on this side stays.
    LinkLeft(usize, Side),
    /// The set 0 sends as any other.
    Set0Sends,
    /// The set 0 meets nothing.
    Set0Passes,
    NothingFreed,
    /// One of the named lots stays.
    LastKept,
    /// Named lots become leaving.
    MarkedAsLeaving,
    /// Seats without a lot are passed over.
    FreeSeatNamed,
    ReservedFreed,
    /// A leaving lot is taken for an empty seat.
    LeaverIsEmpty,
    InClearing,
    /// It takes away what is pending.
    PendingTaken,
    EmptySeatBeforeClearing,
    MessagesLeftBeforeEmptySeat,
}

impl Model {
    /// What a model with a fault, which is taken out, makes of a call.
    pub(super) fn with_crash(&mut self, wrong: WrongCrash, call: Call) -> Answer {
        let Call::Crash { seats } = call else {
            return call.on_model(self);
        };
        let before = self.clone();
        let answer = call.on_model(self);
        if answer.refusal != 0 {
            return self.wrongly_refused(wrong, seats, answer);
        }
        self.wrongly_accepted(wrong, seats, &before);
        match wrong {
            LeaverIsEmpty if before.names(seats, State::Leaving) => {
                *self = before;
                Answer::refused(8)
            }
            _ => answer,
        }
    }

    fn wrongly_accepted(&mut self, wrong: WrongCrash, seats: u64, before: &Model) {
        match wrong {
            LevelForgotten(level) => {
                self.send(|_, _, other| (other != level).then_some(0), seats, None)
            }
            EndForgotten(side) => self.send(|_, _, _| Some(0), seats, Some(side)),
            UntouchedForgotten => {
                let touched = before.touched(seats);
                let is_touched = |lot, _, _| touched.contains(&lot).then_some(0);
                self.send(is_touched, seats, None);
            }
            SentAtItsLevel => self.send(|_, _, level| Some(level as u8), seats, None),
            Level0Sends if seats != 0 => {
                let ends = self.ends();
                let level_0 = ends.into_iter().filter(|(_, _, level)| *level == 0);
                let meet = |(one, other, _)| Message::meet(one, other, 0);
                self.pending.extend(level_0.map(meet));
            }
            LinkLeft(level, side) => {
                for (seat, lot) in (0..).zip(&mut self.lots) {
                    let link = before
                        .lot_at(seat)
                        .map(|lot| lot.links[level][side as usize]);
                    if let (Some(lot), Some(link)) = (lot, link) {
                        lot.links[level][side as usize] = link;
                    }
                }
            }
            Set0Sends if seats == 0 => self.send(|_, _, _| Some(0), 1, None),
            NothingFreed => self.lots = before.lots.clone(),
            LastKept if seats != 0 => {
                let last = u64::BITS - 1 - seats.leading_zeros();
                let lot = before.lots[last as usize].clone();
                let unlinked = |lot| Lot {
                    links: crate::graph::NO_LINKS,
                    ..lot
                };
                self.lots[last as usize] = lot.map(unlinked);
            }
            MarkedAsLeaving => {
                self.lots = before.lots.clone();
                for (_, lot) in (0..)
                    .zip(&mut self.lots)
                    .filter(|(seat, _)| is_in(seats, *seat))
                {
                    lot.as_mut().expect("the seat is named").state = State::Leaving;
                }
            }
            _ => {}
        }
    }

    fn wrongly_refused(&mut self, wrong: WrongCrash, seats: u64, answer: Answer) -> Answer {
        let is_seated = |seat: &u8| self.seated_at(*seat).is_some();
        let all_seats = 0..u64::BITS as u8;
        let seated = all_seats
            .filter(is_seated)
            .fold(0, |set, seat| set | 1 << seat);
        match (wrong, answer.refusal) {
            (FreeSeatNamed, 8) if seats & seated != 0 => {
                let seats = seats & seated;
                Call::Crash { seats }.on_model(self)
            }
            (ReservedFreed, 8) if self.names(seats, State::Reserved) => {
                for (seat, lot) in (0..).zip(&mut self.lots) {
                    let named = is_in(seats, seat);
                    lot.take_if(|lot| named && lot.state == State::Reserved);
                }
                let seats = seats & seated;
                Call::Crash { seats }.on_model(self)
            }
            (InClearing, 7) => {
                let phase = std::mem::replace(&mut self.phase, Phase::Open);
                let answer = Call::Crash { seats }.on_model(self);
                self.phase = phase;
                answer
            }
            (PendingTaken, 11) => {
                self.pending.clear();
                Call::Crash { seats }.on_model(self)
            }
            (Set0Passes, _) if seats == 0 => Answer::accepted(NO_VALUES),
            (EmptySeatBeforeClearing, 7) if seats & !seated != 0 => Answer::refused(8),
            (MessagesLeftBeforeEmptySeat, 8) if !self.pending.is_empty() => Answer::refused(11),
            _ => answer,
        }
    }

    /// Sends anew for each link above level 0: a MEET at the level given for the
    /// two ends and the link's level, if one is; only to the ends on that side of the
    /// other, if a side is named.
    fn send(&mut self, at: impl Fn(u8, u8, usize) -> Option<u8>, seats: u64, to: Option<Side>) {
        if seats == 0 {
            return;
        }
        let ends = self.ends().into_iter().filter(|(_, _, level)| *level > 0);
        let numbers = |seat: u8| self.named(seat).number;
        let is_told = |&(one, other, _): &(u8, u8, usize)| {
            to.is_none_or(|side| Side::toward(numbers(other), numbers(one)) != side)
        };
        let meet = |(one, other, level): (u8, u8, usize)| {
            at(one, other, level).map(|at| Message::meet(one, other, at))
        };
        self.pending = ends.filter(is_told).filter_map(meet).collect();
    }

    /// The two ends of each link, each end once first, and the link's level.
    fn ends(&self) -> Vec<(u8, u8, usize)> {
        let mut ends = Vec::new();
        for (seat, lot) in self.seated() {
            for level in 0..LEVELS {
                for side in SIDES {
                    if let Some(link) = lot.links[level][side as usize] {
                        ends.extend([(seat, link, level), (link, seat, level)]);
                    }
                }
            }
        }
        ends
    }

    /// The lots of components that lose somebody.
    fn touched(&self, seats: u64) -> Vec<u8> {
        let members = self.members();
        let components = components(&members, &self.member_links());
        let lots = || members.iter().map(|member| member.seat).zip(&components);
        let lost =
            |component: &u8| lots().any(|(seat, other)| other == component && is_in(seats, seat));
        let touched = lots().filter(|(_, component)| lost(component));
        touched.map(|(seat, _)| seat).collect()
    }

    fn names(&self, seats: u64, state: State) -> bool {
        let mut lots = self.taken().filter(|(_, lot)| lot.state == state);
        lots.any(|(seat, _)| is_in(seats, seat))
    }

    /// The staying lot with the largest number not above the scanned one, of any
    /// component.
    pub(super) fn seek_among_all(&mut self, call: Call) -> Answer {
        let mut answer = call.on_model(self);
        if let (Call::Find { number, .. }, 0) = (call, answer.refusal) {
            let staying = self.seated().filter(|(_, lot)| lot.state == State::Staying);
            let not_above = staying.filter(|(_, lot)| lot.number <= number);
            let nearest = not_above.max_by_key(|(_, lot)| lot.number);
            answer.values[0] = nearest.map_or(255, |(seat, _)| seat.into());
        }
        answer
    }
}
