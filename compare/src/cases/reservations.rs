//! Reserve first, confirm later (#105): the listing, the bytes, and joins in two
//! steps. What each call answers stands in `list::fixed`.

use super::{q, three_joined};
use crate::lent;
use crate::lent::place::*;
use crate::lent::{from_bytes, place_of, to_bytes};
use crate::model::{Message, Model, Refusal, NO_CONTACT};
use crate::reserved::Unsound;
use crate::text::{self, Command};

/// The bytes of Q with lots 250 and 240 reserved on seats 3 and 4.
fn q_and_two_reserved() -> Vec<u8> {
    let mut bytes = to_bytes(&q());
    lent::reserve(&mut bytes, 3, 250, 64).unwrap();
    lent::reserve(&mut bytes, 4, 240, 0).unwrap();
    bytes
}

fn at(seat: usize) -> usize {
    ENTRIES_AT + ENTRY * seat
}

fn listing(model: &mut Model) -> String {
    let mut out = Vec::new();
    text::answer(model, Some(Command::Print)).print(&mut out);
    String::from_utf8(out).unwrap()
}

#[test]
fn a_listing_shows_no_reserved_lot() {
    let mut model = q();
    let before = listing(&mut model);
    model.reserve(3, 250, 64).unwrap();
    assert_eq!(listing(&mut model), before);
    model.leave(1).unwrap();
    model.turn().unwrap();
    model.settle();
    let clearing = "lots 3 phase clearing pending 0\n0 -: 100 300\n1 0: 100 300\n";
    assert_eq!(listing(&mut model), clearing);
    model.turn().unwrap();
    model.confirm(3, 0).unwrap();
    model.settle();
    let confirmed = "lots 3 phase open pending 0\n0 -: 100 250 300\n1 0: 100 250 300\n";
    assert!(listing(&mut model).starts_with(confirmed));
}

#[test]
fn an_entry_of_a_reserved_lot() {
    let mut bytes = to_bytes(&Model::open());
    lent::reserve(&mut bytes, 2, 0x0102_0304_0506_0708, 9).unwrap();
    let mut entry = vec![3, 1, 2, 3, 4, 5, 6, 7, 8, 9];
    entry.resize(ENTRY, NO_LINK);
    assert_eq!(bytes[at(2)..at(3)], entry);
    bytes[at(2)..at(3)].copy_from_slice(&to_bytes(&Model::open())[at(2)..at(3)]);
    assert_eq!(bytes, to_bytes(&Model::open()));
}

/// It differs from a free seat by its state alone.
#[test]
fn number_and_vector_0_may_be_reserved() {
    let mut bytes = to_bytes(&Model::open());
    bytes[at(7) + STATE_AT] = 3;
    assert_eq!(lent::read_lot(&bytes, 7).map(|lot| lot.number), Ok(0));
    assert_eq!(from_bytes(&bytes).unwrap().taken().count(), 1);
    lent::give_back(&mut bytes, 7).unwrap();
    assert_eq!(bytes, to_bytes(&Model::open()));
}

/// Each way by itself, and the sound record beside it.
#[test]
fn reserved_lots_make_a_record_unsound() {
    let sound = q_and_two_reserved();
    assert_eq!(lent::validate(&sound), Ok(()));
    assert_eq!(Unsound::of_bytes(&sound), None);
    let changed = |at: usize, byte| {
        let mut bytes = sound.clone();
        assert_ne!(bytes[at], byte);
        bytes[at] = byte;
        bytes
    };
    let sent = |message| {
        let place = place_of(message).unwrap();
        changed(PENDING_AT + place / 8, 1 << (place % 8))
    };
    let low_byte = VECTOR_AT - 1;
    // 250 lies to the right of 200 on seat 1.
    for (way, bytes) in [
        (Unsound::HasLink, changed(at(3) + link_at(0, 0), 1)),
        (Unsound::NumberOfSeated, changed(at(3) + low_byte, 100)),
        (Unsound::NumberOfReserved, changed(at(4) + low_byte, 250)),
        (Unsound::LinkTo, changed(at(1) + link_at(0, 1), 3)),
        (Unsound::MessageTo, sent(Message::meet(3, 0, 0))),
        (Unsound::MessageAbout, sent(Message::meet(0, 3, 0))),
        (Unsound::StateAbove, changed(at(3) + STATE_AT, 4)),
    ] {
        assert_eq!(lent::validate(&bytes), Err(Refusal::Unsound), "{way:?}");
        assert_eq!(from_bytes(&bytes), None, "{way:?}");
        assert_eq!(Unsound::of_bytes(&bytes), Some(way));
    }
}

/// In an empty record, in Q, with messages pending; and in clearing as if there had
/// never been a reservation.
#[test]
fn a_return_leaves_the_bytes_as_they_were() {
    for model in [Model::open(), q(), three_joined()] {
        let before = to_bytes(&model);
        let mut bytes = before.clone();
        lent::reserve(&mut bytes, 9, u64::MAX, 255).unwrap();
        assert_ne!(bytes, before);
        lent::give_back(&mut bytes, 9).unwrap();
        assert_eq!(bytes, before);
    }
    let mut without = to_bytes(&q());
    let mut with = q_and_two_reserved();
    for bytes in [&mut without, &mut with] {
        lent::leave(bytes, 1).unwrap();
        lent::turn(bytes).unwrap();
    }
    for seat in [3, 4] {
        assert_ne!(with, without);
        lent::give_back(&mut with, seat).unwrap();
    }
    assert_eq!(with, without);
}

/// Where the join is accepted; one that meets 6 leaves no reservation.
#[test]
fn a_join_is_a_reservation_and_its_confirmation() {
    let mut answers = [0; 2];
    for (before, contact) in [to_bytes(&Model::open()), q_and_two_reserved()]
        .iter()
        .flat_map(|before| (0..=NO_CONTACT).map(move |contact| (before, contact)))
        .filter(|(_, contact)| *contact < 64 || *contact == NO_CONTACT)
    {
        let (mut joined, mut in_two) = (before.clone(), before.clone());
        let join = lent::join(&mut joined, 9, 900, 90, contact);
        assert_eq!(lent::reserve(&mut in_two, 9, 900, 90), Ok(()));
        assert_eq!(lent::confirm(&mut in_two, 9, contact), join);
        match join {
            Ok(()) => assert_eq!(joined, in_two),
            Err(refusal) => {
                assert_eq!(refusal, Refusal::NoContact);
                assert_eq!(joined, *before);
            }
        }
        answers[usize::from(join.is_ok())] += 1;
    }
    // Accepted without a contact, or through one of the three lots of Q.
    assert_eq!(answers, [2 * 65 - 4, 4]);
}
