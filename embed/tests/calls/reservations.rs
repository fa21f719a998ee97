//! Reserve first, confirm later: document 02, #105.

use crate::common::{deliver_all, message_at, q, refused, three_lots, Owned, PENDING};
use lots_record::{Counts, Lot, Message, Phase, Record, Refusal, Side, State};

/// Where the entry of a seat begins, and its size.
const fn entry(seat: usize) -> usize {
    1 + SIZE_OF_ENTRY * seat
}
const SIZE_OF_ENTRY: usize = 28;

/// Lot 250 is reserved on seat 3, with vector 64.
fn with_reserved(mut record: Owned) -> Owned {
    record.reserve(3, 250, 64).unwrap();
    record
}

/// Lot 200 of Q is being cleared, and messages are pending.
fn clearing(mut record: Owned) -> Owned {
    record.leave(1).unwrap();
    record.turn().unwrap();
    record
}

/// The bytes without what stands in the entry of seat 3.
fn beside_seat_3(record: &Owned) -> Vec<u8> {
    let mut bytes = record.as_bytes().to_vec();
    bytes[entry(3)..entry(4)].fill(0);
    bytes
}

#[test]
fn only_reading_the_lot_shows_it() {
    let record = with_reserved(q());
    let lot = Lot {
        state: State::Reserved,
        number: 250,
        vector: 64,
    };
    assert_eq!(record.lot(3), Ok(lot));
    assert_eq!(record.counts(), q().counts());
    assert_eq!(record.check(), Ok(true));
    for start in 0..3 {
        for number in [99, 100, 249, 250, 275, 300] {
            assert_eq!(record.find(start, number), q().find(start, number));
        }
    }
    refused(record.as_bytes(), 8, |record| record.find(3, 250).map(drop));
    refused(record.as_bytes(), 8, |record| {
        record.link(3, 0, Side::Left).map(drop)
    });
    refused(record.as_bytes(), 8, |record| record.leave(3));
}

/// Its entry alone is written: state, number, vector, and no link.
#[test]
fn a_reservation_is_one_entry() {
    for before in [Record::new(), three_lots(), q()] {
        let record = with_reserved(before.clone());
        assert_eq!(beside_seat_3(&record), beside_seat_3(&before));
        let entry = &record.as_bytes()[entry(3)..entry(4)];
        assert_eq!(entry[..10], [3, 0, 0, 0, 0, 0, 0, 0, 250, 64]);
        assert_eq!(entry[10..], [255; 18]);
    }
}

#[test]
fn seat_and_number_are_taken() {
    let record = with_reserved(q());
    let bytes = record.as_bytes();
    refused(bytes, 4, |record| record.join(3, 400, 0, Some(0)));
    refused(bytes, 4, |record| record.reserve(3, 400, 0));
    refused(bytes, 4, |record| record.reserve(3, 250, 64));
    refused(bytes, 4, |record| record.reserve(0, 400, 0));
    refused(bytes, 5, |record| record.join(4, 250, 0, Some(0)));
    refused(bytes, 5, |record| record.reserve(4, 250, 0));
    refused(bytes, 5, |record| record.reserve(4, 100, 0));
}

#[test]
fn a_reserved_lot_is_no_contact() {
    let mut record = with_reserved(q());
    record.reserve(4, 260, 0).unwrap();
    let bytes = record.as_bytes();
    refused(bytes, 6, |record| record.join(5, 400, 0, Some(3)));
    for contact in [Some(3), Some(4), Some(9), None, Some(255)] {
        refused(bytes, 6, |record| record.confirm(4, contact));
    }
}

/// Whoever is first needs no contact, and has none.
#[test]
fn only_reserved_lots() {
    let record = with_reserved(Record::new());
    refused(record.as_bytes(), 6, |record| {
        record.join(0, 100, 0, Some(3))
    });
    refused(record.as_bytes(), 6, |record| record.confirm(3, Some(3)));
    refused(record.as_bytes(), 6, |record| record.confirm(3, Some(0)));
    let one = Counts {
        lots: 1,
        phase: Phase::Open,
        pending: 0,
    };
    let mut confirmed = record.clone();
    confirmed.confirm(3, None).unwrap();
    assert_eq!(confirmed.counts(), Ok(one));
    assert_eq!(confirmed.find(3, 250).unwrap().holder, Some(3));
    let mut joined = record;
    joined.join(0, 100, 0, None).unwrap();
    assert_eq!(joined.counts(), Ok(one));
    joined.confirm(3, Some(0)).unwrap();
    assert_eq!(joined.is_pending(Message::new(1, 0, 3, 0, 0)), Ok(true));
}

/// The same bytes, and so the same messages; where the join meets 6 nothing is left.
#[test]
fn a_join_is_a_reservation_and_its_confirmation() {
    for before in [Record::new(), three_lots(), q(), with_reserved(q())] {
        for contact in (0..64).map(Some).chain([None]) {
            let (mut joined, mut in_two) = (before.clone(), before.clone());
            let answer = joined.join(9, 400, 7, contact);
            in_two.reserve(9, 400, 7).unwrap();
            assert_eq!(in_two.confirm(9, contact), answer);
            match answer {
                Ok(()) => assert_eq!(joined, in_two),
                Err(refusal) => assert_eq!((refusal, joined), (Refusal::NoContact, before.clone())),
            }
        }
    }
}

/// The reservation of a record is given back: what is left is the other record.
fn returned(mut record: Owned, before: &Owned) {
    assert_ne!(record, *before);
    record.give_back(3).unwrap();
    assert_eq!(record, *before);
    refused(record.as_bytes(), 14, |record| record.give_back(3));
}

#[test]
fn a_return_leaves_nothing() {
    for before in [Record::new(), three_lots(), q()] {
        returned(with_reserved(before.clone()), &before);
    }
}

#[test]
fn a_return_in_clearing_leaves_nothing() {
    let (mut record, mut before) = (clearing(with_reserved(q())), clearing(q()));
    returned(record.clone(), &before);
    deliver_all(&mut record);
    deliver_all(&mut before);
    returned(record, &before);
}

/// Both turns, and the deliveries between them.
#[test]
fn a_clearing_leaves_it_alone() {
    let (mut record, mut without) = (clearing(with_reserved(q())), clearing(q()));
    for each in [&mut record, &mut without] {
        deliver_all(each);
        each.turn().unwrap();
    }
    assert_eq!(beside_seat_3(&record), beside_seat_3(&without));
    assert_eq!(record.lot(3).unwrap().state, State::Reserved);
    record.confirm(3, Some(2)).unwrap();
    deliver_all(&mut record);
    assert_eq!(record.check(), Ok(true));
    assert_eq!(record.find(0, 275).unwrap().holder, Some(3));
}

#[test]
fn the_first_row_that_applies_is_given() {
    let open = with_reserved(q());
    let bytes = open.as_bytes();
    refused(bytes, 4, |record| record.reserve(0, 250, 0));
    refused(bytes, 14, |record| record.confirm(9, Some(9)));
    refused(bytes, 14, |record| record.confirm(0, Some(0)));
    refused(bytes, 14, |record| record.confirm(9, None));
    refused(bytes, 14, |record| record.give_back(9));
    refused(bytes, 14, |record| record.give_back(0));
    let clearing = clearing(open);
    let bytes = clearing.as_bytes();
    refused(bytes, 7, |record| record.reserve(9, 400, 0));
    refused(bytes, 7, |record| record.reserve(0, 250, 0));
    refused(bytes, 7, |record| record.confirm(3, Some(0)));
    refused(bytes, 7, |record| record.confirm(9, Some(9)));
    // Not 7: a free seat, a staying and a leaving lot.
    for seat in [9, 0, 1] {
        refused(bytes, 14, |record| record.give_back(seat));
    }
}

/// A reserved lot with a link, with a number that another has, seated or reserved, one
/// that a link names, and one that a message is sent to or about.
#[test]
fn reserved_lots_of_unsound_records() {
    let mut sound = with_reserved(q());
    sound.reserve(4, 240, 0).unwrap();
    assert_eq!(sound.validate(), Ok(()));
    let changed = |at: usize, byte: u8| {
        let mut bytes = sound.as_bytes().to_vec();
        assert_ne!(bytes[at], byte);
        bytes[at] = byte;
        bytes
    };
    let sent = |message| {
        let place = (0..).find(|&place| message_at(place) == message).unwrap();
        changed(PENDING + place as usize / 8, 1 << (place % 8))
    };
    for bytes in [
        changed(entry(3) + 10, 1),
        changed(entry(3) + 8, 100),
        changed(entry(4) + 8, 250),
        // The right link of lot 200.
        changed(entry(1) + 11, 3),
        sent(Message::new(1, 3, 0, 0, 0)),
        sent(Message::new(1, 0, 3, 0, 0)),
    ] {
        refused(&bytes, 2, |record| record.validate());
    }
}

#[test]
fn number_and_vector_0_may_be_reserved() {
    let mut bytes = Record::new().into_inner();
    bytes[entry(7)] = 3;
    let mut record = Record::new();
    record.reserve(7, 0, 0).unwrap();
    assert_eq!(record.as_bytes(), bytes);
    assert_eq!(Record::over(bytes).validate(), Ok(()));
}
