//! Reservations, confirmations and returns that do, leave or refuse otherwise than
//! document 02, #105, says, and turns and joins that touch reservations.

use super::{Message, Model, Phase, NO_CONTACT};
use crate::call::{Answer, Call, NO_VALUES};
use crate::graph::Side;
use WrongReserving::*;

#[derive(Clone, Copy, PartialEq, Eq, Debug)]
pub(crate) enum WrongReserving {
    ReserveSends,
    ReserveLinks,
    ConfirmSendsNothing,
    /// The newcomer is told of the contact.
    ConfirmTellsTheNewcomer,
    /// Also where there is no contact.
    FirstConfirmSends,
    /// Its own seat is a contact.
    ConfirmSendsToItself,
    GiveBackKeeps,
    /// The number that was given back last is still in use.
    GiveBackLeavesNumber(Option<u64>),
    /// The next reservation of the seat that was given back last has its vector.
    GiveBackLeavesVector(Option<(u8, u8)>),
    TurnToClearingFrees,
    TurnToOpenFrees,
    /// By 6.
    RefusedJoinReserves,
    ReserveInClearing,
    ConfirmInClearing,
    GiveBackWaits,
    NotReservedIsEmpty,
    NotReservedBeforeClearing,
    NoContactBeforeNotReserved,
}

impl Model {
    /// What a model with a fault, which is taken out, makes of a call.
    pub(super) fn with_reserving(&mut self, wrong: &mut WrongReserving, call: Call) -> Answer {
        if !call.changes_bytes() {
            return call.on_model(self);
        }
        let before = self.clone();
        let answer = call.on_model(self);
        match call {
            Call::Join { .. } | Call::Reserve { .. } => {
                self.wrongly_taken(*wrong, call, answer, before)
            }
            Call::Confirm { seat, contact } => {
                self.wrongly_confirmed(*wrong, seat, contact, answer, before)
            }
            Call::GiveBack { seat } => self.wrongly_given_back(wrong, seat, answer, before),
            Call::Turn => self.wrongly_turned(*wrong, answer, before.phase),
            _ => answer,
        }
    }

    /// A seat, by a reservation or a join.
    fn wrongly_taken(
        &mut self,
        wrong: WrongReserving,
        call: Call,
        answer: Answer,
        before: Model,
    ) -> Answer {
        let (seat, number, vector, reserves) = match call {
            Call::Join {
                seat,
                number,
                vector,
                ..
            } => (seat, number, vector, false),
            Call::Reserve {
                seat,
                number,
                vector,
            } => (seat, number, vector, true),
            _ => return answer,
        };
        let first = before.seated().next().filter(|_| reserves);
        match (wrong, answer.refusal, first) {
            (ReserveSends, 0, Some((first, _))) => {
                self.pending.insert(Message::meet(first, seat, 0));
            }
            (ReserveLinks, 0, Some((first, lot))) => {
                let side = Side::toward(number, lot.number);
                self.links_mut(seat)[0][side as usize] = Some(first);
            }
            (RefusedJoinReserves, 6, _) => self.hold(seat, number, vector),
            (ReserveInClearing, 7, _) if reserves => return self.in_phase_open(call),
            (GiveBackLeavesNumber(left), 0, _) if left == Some(number) => {
                *self = before;
                return Answer::refused(5);
            }
            (GiveBackLeavesVector(Some((left, vector))), 0, _) if reserves && left == seat => {
                self.hold(seat, number, vector);
            }
            _ => {}
        }
        answer
    }

    fn wrongly_confirmed(
        &mut self,
        wrong: WrongReserving,
        seat: u8,
        contact: u8,
        answer: Answer,
        before: Model,
    ) -> Answer {
        let refused = answer.refusal;
        match wrong {
            ConfirmSendsNothing => self.pending = before.pending,
            ConfirmTellsTheNewcomer if refused == 0 && contact != NO_CONTACT => {
                self.pending = before.pending;
                self.pending.insert(Message::meet(seat, contact, 0));
            }
            FirstConfirmSends if refused == 0 => {
                self.pending.insert(Message::meet(contact, seat, 0));
            }
            ConfirmSendsToItself if refused == 6 && contact == seat => {
                self.seat(seat, contact);
                return Answer::accepted(NO_VALUES);
            }
            ConfirmInClearing if refused == 7 => {
                return self.in_phase_open(Call::Confirm { seat, contact });
            }
            NotReservedIsEmpty if refused == 14 => return Answer::refused(8),
            NotReservedBeforeClearing if refused == 7 && self.reserved_lot(seat).is_none() => {
                return Answer::refused(14);
            }
            NoContactBeforeNotReserved
                if refused == 14 && self.must_have_contact(contact).is_err() =>
            {
                return Answer::refused(6);
            }
            _ => {}
        }
        answer
    }

    fn wrongly_given_back(
        &mut self,
        wrong: &mut WrongReserving,
        seat: u8,
        answer: Answer,
        before: Model,
    ) -> Answer {
        let lot = before.reserved_lot(seat);
        match (&wrong, lot) {
            (GiveBackLeavesNumber(_), Some(lot)) => *wrong = GiveBackLeavesNumber(Some(lot.number)),
            (GiveBackLeavesVector(_), Some(lot)) => {
                *wrong = GiveBackLeavesVector(Some((seat, lot.vector)));
            }
            (GiveBackKeeps, _) => *self = before,
            (GiveBackWaits, _) if self.phase == Phase::Clearing => {
                *self = before;
                return Answer::refused(7);
            }
            (NotReservedIsEmpty, None) if answer.refusal == 14 => return Answer::refused(8),
            _ => {}
        }
        answer
    }

    fn wrongly_turned(&mut self, wrong: WrongReserving, answer: Answer, before: Phase) -> Answer {
        let frees = match (before, self.phase) {
            (Phase::Open, Phase::Clearing) => wrong == TurnToClearingFrees,
            (Phase::Clearing, Phase::Open) => wrong == TurnToOpenFrees,
            _ => false,
        };
        for lot in &mut self.lots {
            lot.take_if(|lot| frees && !lot.is_seated());
        }
        answer
    }

    fn in_phase_open(&mut self, call: Call) -> Answer {
        let phase = std::mem::replace(&mut self.phase, Phase::Open);
        let answer = call.on_model(self);
        self.phase = phase;
        answer
    }
}
