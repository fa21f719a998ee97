//! What the calls send that take a seat, mark its lot or free it; and what joins
//! and reservations have to do with each other (document 02, #105).

use super::{holds, Check};
use crate::call::Call;
use crate::model::{Message, Model, NO_CONTACT};

/// An accepted call; those that are none of these pass.
pub fn check(call: Call, before: &Model, after: &Model) -> Check {
    sends_what_it_says(call, before, after)?;
    match call {
        Call::Join {
            seat,
            number,
            vector,
            contact,
        } => {
            let reserve = Call::Reserve {
                seat,
                number,
                vector,
            };
            holds(
                reached(before, &[reserve, Call::Confirm { seat, contact }], after),
                "a join is not a reservation and its confirmation",
            )
        }
        Call::Reserve { seat, .. } => holds(
            reached(after, &[Call::GiveBack { seat }], before),
            "a reservation that is given back leaves something",
        ),
        Call::Confirm { seat, contact } => {
            let lot = before.lot(seat).map_err(|_| "a free seat was confirmed")?;
            let (number, vector) = (lot.number, lot.vector);
            let join = Call::Join {
                seat,
                number,
                vector,
                contact,
            };
            holds(
                reached(before, &[Call::GiveBack { seat }, join], after),
                "a confirmation is not the join in its place",
            )
        }
        _ => Ok(()),
    }
}

/// A join and a confirmation one MEET to the contact, if there is one, the others
/// nothing.
fn sends_what_it_says(call: Call, before: &Model, after: &Model) -> Check {
    let mut pending = before.pending().clone();
    match call {
        Call::Join { seat, contact, .. } | Call::Confirm { seat, contact } => {
            let contact = Some(contact).filter(|&contact| contact != NO_CONTACT);
            pending.extend(contact.map(|contact| Message::meet(contact, seat, 0)));
        }
        Call::Reserve { .. } | Call::GiveBack { .. } | Call::Leave { .. } => {}
        _ => return Ok(()),
    }
    holds(
        *after.pending() == pending,
        "a call does not send what it says",
    )
}

/// Whether these calls, all accepted, lead from one model to the other.
fn reached(from: &Model, calls: &[Call], to: &Model) -> bool {
    let mut model = from.clone();
    let mut calls = calls.iter();
    calls.all(|call| call.on_model(&mut model).refusal == 0)
        && model.phase() == to.phase()
        && model.taken().eq(to.taken())
        && model.pending() == to.pending()
}
