//! Every refusal of documents 01 and 02, and that it changes no byte.

use crate::common::{deliver_all, q, refused, three_lots, Owned, PENDING};
use lots_record::{Message, Record, Refusal, Side, SIZE};

const NO_MESSAGE: Message = Message::new(1, 0, 63, 8, 0);

type Call = fn(&mut Record<&mut [u8]>) -> Result<(), Refusal>;

/// Every call but open, with arguments that Q accepts, or else refuses with 8, 10 or
/// 14: a later row than 1 and 2.
const CALLS: [Call; 22] = [
    |record| record.join(3, 400, 0, Some(0)),
    |record| record.reserve(3, 400, 0),
    |record| record.confirm(3, Some(0)),
    |record| record.give_back(3),
    |record| record.leave(9),
    |record| record.deliver(NO_MESSAGE),
    |record| record.bundle(1).map(drop),
    |record| record.deliver_all().map(drop),
    |record| record.turn(),
    |record| record.crash(1 << 9),
    |record| record.merge(9, 9),
    |record| record.find(9, 250).map(drop),
    |record| record.check().map(drop),
    |record| record.lot(9).map(drop),
    |record| record.link(9, 0, Side::Left).map(drop),
    |record| record.is_pending(NO_MESSAGE).map(drop),
    |record| record.counts().map(drop),
    |record| record.validate(),
    |record| record.next_message(NO_MESSAGE).map(drop),
    |record| record.pending_messages().map(drop),
    |record| record.lots().map(drop),
    |record| record.taken().map(drop),
];

// Where entries begin.
const ENTRY: usize = 28;
const SEAT_0: usize = 1;
const SEAT_1: usize = SEAT_0 + ENTRY;
const SEAT_2: usize = SEAT_1 + ENTRY;
const SEAT_3: usize = SEAT_2 + ENTRY;

/// Messages are pending.
fn clearing() -> Owned {
    let mut record = q();
    record.leave(1).unwrap();
    record.turn().unwrap();
    record
}

#[test]
fn wrong_size_of_every_call() {
    let q = q();
    let long = [q.as_bytes(), &[0]].concat();
    for bytes in [&[], &q.as_bytes()[..SIZE - 1], &long[..]] {
        refused(bytes, 1, |record| record.open());
        for call in CALLS {
            refused(bytes, 1, call);
        }
    }
    assert_eq!((SIZE - 1, SIZE + 1), (20_256, 20_258));
}

#[test]
fn unsound_of_every_call_but_open() {
    for bytes in unsound() {
        for call in CALLS {
            refused(&bytes, 2, call);
        }
        let mut record = Record::over(bytes);
        assert_eq!(record.open(), Ok(()));
        assert_eq!(record.as_bytes(), Record::new().as_bytes());
    }
}

/// Bytes of the right size that break one clause of "Sound" each, and some that
/// break many.
fn unsound() -> Vec<Vec<u8>> {
    let q = q();
    let changed = |at: usize, byte: u8| {
        assert_ne!(q.as_bytes()[at], byte);
        let mut bytes = q.as_bytes().to_vec();
        bytes[at] = byte;
        bytes
    };
    vec![
        vec![0; SIZE],
        vec![255; SIZE],
        // The phase.
        changed(0, 2),
        // A state, and a free seat's number, vector and link.
        changed(SEAT_0, 4),
        changed(SEAT_3 + 8, 1),
        changed(SEAT_3 + 9, 1),
        changed(SEAT_3 + 10, 0),
        // A number twice: 200 becomes 100.
        changed(SEAT_1 + 8, 100),
        // A link to no seat, to a free seat, to itself, to the wrong side, and to
        // a lot that shares fewer bits than the level.
        changed(SEAT_0 + 11, 64),
        changed(SEAT_0 + 11, 3),
        changed(SEAT_0 + 11, 0),
        changed(SEAT_0 + 10, 1),
        changed(SEAT_0 + 13, 1),
        // A MEET to a lot about itself, and a NONE in phase open.
        changed(PENDING, 1),
        changed(SIZE - 1, 128),
    ]
}

#[test]
fn no_such_seat() {
    for record in [q(), clearing()] {
        let bytes = record.as_bytes();
        for seat in [64, 255] {
            refused(bytes, 3, |record| record.join(seat, 200, 0, Some(9)));
            refused(bytes, 3, |record| record.reserve(seat, 200, 0));
            refused(bytes, 3, |record| record.confirm(seat, Some(9)));
            refused(bytes, 3, |record| record.give_back(seat));
            refused(bytes, 3, |record| record.leave(seat));
            refused(bytes, 3, |record| record.merge(seat, 9));
            refused(bytes, 3, |record| record.merge(9, seat));
            refused(bytes, 3, |record| record.merge(seat, seat));
            refused(bytes, 3, |record| record.find(seat, 250).map(drop));
            refused(bytes, 3, |record| record.lot(seat).map(drop));
            refused(bytes, 3, |record| {
                record.link(seat, 9, Side::Left).map(drop)
            });
        }
        for contact in [64, 254] {
            refused(bytes, 3, |record| record.join(3, 400, 0, Some(contact)));
            refused(bytes, 3, |record| record.confirm(9, Some(contact)));
        }
    }
}

#[test]
fn no_such_level() {
    for (level, side) in [(9, Side::Left), (255, Side::Right)] {
        for seat in [0, 9] {
            refused(q().as_bytes(), 12, |record| {
                record.link(seat, level, side).map(drop)
            });
        }
    }
}

#[test]
fn clearing_comes_before_what_follows_it() {
    let clearing = clearing();
    refused(clearing.as_bytes(), 7, |record| {
        record.join(3, 400, 0, Some(0))
    });
    refused(clearing.as_bytes(), 7, |record| {
        record.join(0, 100, 0, None)
    });
    refused(clearing.as_bytes(), 7, |record| record.leave(0));
    refused(clearing.as_bytes(), 7, |record| record.leave(9));
}

#[test]
fn join_meets_4_then_5_then_6() {
    let q = q();
    refused(q.as_bytes(), 4, |record| record.join(1, 200, 0, Some(9)));
    refused(q.as_bytes(), 5, |record| record.join(3, 200, 0, Some(9)));
    refused(q.as_bytes(), 6, |record| record.join(3, 400, 0, Some(9)));
    refused(q.as_bytes(), 6, |record| record.join(3, 400, 0, Some(3)));
    refused(q.as_bytes(), 6, |record| record.join(3, 400, 0, None));
    refused(q.as_bytes(), 6, |record| record.join(3, 400, 0, Some(255)));
}

#[test]
fn empty_seat() {
    for seat in [3, 63] {
        refused(q().as_bytes(), 8, |record| record.leave(seat));
        refused(q().as_bytes(), 8, |record| record.find(seat, 250).map(drop));
        refused(q().as_bytes(), 8, |record| record.lot(seat).map(drop));
        refused(q().as_bytes(), 8, |record| {
            record.link(seat, 8, Side::Right).map(drop)
        });
    }
}

/// Records that are not settled: messages pending in either phase, clearing with
/// nothing pending, and Q without some links, so that the check says no.
fn unsettled() -> Vec<Vec<u8>> {
    let mut cleared = clearing();
    deliver_all(&mut cleared);
    let (left, right) = (SEAT_2 + 12, SEAT_0 + 13);
    let level_0 = [SEAT_0 + 11, SEAT_1 + 10, SEAT_1 + 11, SEAT_2 + 10];
    let without = |places: &[usize]| {
        let mut bytes = q().as_bytes().to_vec();
        for &at in places {
            assert_ne!(bytes[at], 255);
            bytes[at] = 255;
        }
        assert_eq!(Record::over(&bytes).check(), Ok(false));
        bytes
    };
    vec![
        three_lots().as_bytes().to_vec(),
        clearing().as_bytes().to_vec(),
        cleared.as_bytes().to_vec(),
        // A link at level 0, both at level 1, and all at level 0: 200 is a component
        // of its own, and the other is no skip graph.
        without(&level_0[..1]),
        without(&[left, right]),
        without(&level_0),
    ]
}

#[test]
fn find_meets_3_then_8_then_13() {
    for bytes in unsettled() {
        for (seat, number) in [(64, 3), (9, 8), (0, 13), (2, 13)] {
            refused(&bytes, number, |record| record.find(seat, 250).map(drop));
        }
    }
}

#[test]
fn already_leaving() {
    let mut record = q();
    record.leave(1).unwrap();
    refused(record.as_bytes(), 9, |record| record.leave(1));
}

#[test]
fn no_such_message() {
    let pending = Message::new(1, 0, 1, 0, 0);
    let record = three_lots();
    assert_eq!(record.is_pending(pending), Ok(true));
    let others = [
        NO_MESSAGE,
        Message::new(0, 0, 0, 0, 0),
        Message::new(8, 0, 1, 0, 0),
        Message::new(255, 255, 255, 255, 255),
        Message { kind: 2, ..pending },
        Message { to: 64, ..pending },
        Message { to: 2, ..pending },
        Message {
            about: 65,
            ..pending
        },
        Message {
            level: 9,
            ..pending
        },
        Message { side: 1, ..pending },
        Message { side: 2, ..pending },
    ];
    for message in others {
        assert_eq!(record.is_pending(message), Ok(false));
        refused(record.as_bytes(), 10, |record| record.deliver(message));
    }
}

#[test]
fn messages_left() {
    refused(three_lots().as_bytes(), 11, |record| record.turn());
    refused(three_lots().as_bytes(), 11, |record| record.crash(1));
    refused(clearing().as_bytes(), 11, |record| record.turn());
}

#[test]
fn a_refusal_is_an_error_with_the_tables_term() {
    let terms = [
        "wrong size",
        "unsound",
        "no such seat",
        "seat taken",
        "number in use",
        "no contact",
        "clearing",
        "empty seat",
        "already leaving",
        "no such message",
        "messages left",
        "no such level",
        "unsettled",
        "not reserved",
        "same lot",
    ];
    for (number, term) in (1..).zip(terms) {
        let refusal = Refusal::from_number(number).unwrap();
        assert_eq!(refusal.number(), number);
        let error: Box<dyn std::error::Error> = refusal.into();
        assert_eq!(error.to_string(), term);
    }
}
