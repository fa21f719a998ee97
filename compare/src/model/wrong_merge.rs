//! Merges that send, change or refuse otherwise than document 02, #107, says.

use super::{must_be_seat, Message, Model, Phase, State};
use crate::before::Before;
use crate::call::{Answer, Call, NO_VALUES};
use crate::graph::Side;
use crate::joined::Joined;
use crate::lent::to_bytes;
use WrongMerge::*;

#[derive(Clone, Copy, PartialEq, Eq, Debug)]
pub(crate) enum WrongMerge {
    /// The second is told of the first.
    TurnedRound,
    BothTold,
    AtLevel1,
    NothingSent,
    /// A lot that has the other as its link is not told.
    LinkedNotTold,
    /// The first links to the second without a message.
    LinksAtOnce,
    /// What was pending is taken away.
    OthersTaken,
    /// A leaving lot stays again.
    LeaverStays,
    /// By 15, if links and MEETs join the two.
    WithinRefused,
    /// By 11.
    PendingRefused,
    /// By 8, if the first is leaving, or the second.
    FirstLeaverRefused,
    SecondLeaverRefused,
    ReservedTaken,
    /// A merge with a free second seat sends nothing, and is not refused.
    FreeSecondTaken,
    /// It sends nothing, and is not refused.
    SameLotTaken,
    InClearing,
    SameLotBeforeEmptySeat,
    SameLotBeforeClearing,
    EmptySeatBeforeClearing,
    ClearingBeforeNoSeat,
    /// By 8.
    NoSecondSeatIsEmpty,
}

impl Model {
    /// What a model with a fault, which is taken out, makes of a call.
    pub(super) fn with_merge(&mut self, wrong: WrongMerge, call: Call) -> Answer {
        let Call::Merge { first, second } = call else {
            return call.on_model(self);
        };
        let before = self.clone();
        let answer = call.on_model(self);
        if answer.refusal != 0 {
            return self.merge_wrongly_refused(wrong, first, second, answer);
        }
        let refused = match wrong {
            WithinRefused if before.are_joined(first, second) => 15,
            PendingRefused if !before.pending.is_empty() => 11,
            FirstLeaverRefused if before.is_leaving_at(first) => 8,
            SecondLeaverRefused if before.is_leaving_at(second) => 8,
            _ => {
                self.merge_wrongly(wrong, first, second, before);
                return answer;
            }
        };
        *self = before;
        Answer::refused(refused)
    }

    fn merge_wrongly(&mut self, wrong: WrongMerge, first: u8, second: u8, before: Model) {
        let turned = Message::meet(second, first, 0);
        let side = Side::toward(self.named(first).number, self.named(second).number);
        let is_linked = before.named(first).links[0][side as usize] == Some(second);
        match wrong {
            TurnedRound | AtLevel1 | NothingSent | LinksAtOnce => self.pending = before.pending,
            LinkedNotTold if is_linked => self.pending = before.pending,
            OthersTaken => self.pending = [Message::meet(first, second, 0)].into(),
            _ => {}
        }
        match wrong {
            TurnedRound | BothTold => {
                self.pending.insert(turned);
            }
            AtLevel1 => {
                self.pending.insert(Message::meet(first, second, 1));
            }
            LinksAtOnce => self.links_mut(first)[0][side as usize] = Some(second),
            LeaverStays => {
                let lot = self.lots[usize::from(first)].as_mut();
                lot.expect("the lot is seated").state = State::Staying;
            }
            _ => {}
        }
    }

    fn merge_wrongly_refused(
        &mut self,
        wrong: WrongMerge,
        first: u8,
        second: u8,
        answer: Answer,
    ) -> Answer {
        let is_empty = |seat: u8| self.seated_at(seat).is_none();
        let is_seat = |seat: u8| must_be_seat(seat).is_ok();
        let accepted = Answer::accepted(NO_VALUES);
        match (wrong, answer.refusal) {
            (ReservedTaken, 8) if self.reserved_lot(second).is_some() && first != second => {
                accepted
            }
            (FreeSecondTaken, 8) if !is_empty(first) && self.lot_at(second).is_none() => accepted,
            (SameLotTaken, 15) => accepted,
            (InClearing, 7) => {
                self.phase = Phase::Open;
                let answer = Call::Merge { first, second }.on_model(self);
                self.phase = Phase::Clearing;
                answer
            }
            (SameLotBeforeEmptySeat, 8) if first == second => Answer::refused(15),
            (SameLotBeforeClearing, 7) if first == second => Answer::refused(15),
            (EmptySeatBeforeClearing, 7) if is_empty(first) || is_empty(second) => {
                Answer::refused(8)
            }
            (ClearingBeforeNoSeat, 3) if self.phase == Phase::Clearing => Answer::refused(7),
            (NoSecondSeatIsEmpty, 3) if is_seat(first) => Answer::refused(8),
            _ => answer,
        }
    }

    fn is_leaving_at(&self, seat: u8) -> bool {
        let lot = self.seated_at(seat);
        lot.is_some_and(|lot| lot.state == State::Leaving)
    }

    fn are_joined(&self, first: u8, second: u8) -> bool {
        let record = &to_bytes(self);
        let joined = Joined::of(Before { record }, |_| true);
        joined.to(first) == joined.to(second)
    }
}
