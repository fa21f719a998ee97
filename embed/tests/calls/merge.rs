//! Two halves find each other: document 02, #107.

use crate::common::{deliver_all, found, in_a_row, q, refused, set, three_lots, Owned};
use lots_record::{Message, Phase, Record, Refusal, Side, State};

fn meet(to: u8, about: u8) -> Message {
    Message::new(1, to, about, 0, 0)
}

/// 100 and 200 on seats 0 and 1 are a component, 400 and 500 on 3 and 4 another.
fn halves() -> Owned {
    let mut record = in_a_row(5);
    record.crash(set(&[2])).unwrap();
    deliver_all(&mut record);
    record
}

/// What the two halves are once they have found each other: lots that joined without 300.
fn whole() -> Owned {
    let mut record = Record::new();
    for (seat, contact) in [(0, None), (1, Some(0)), (3, Some(0)), (4, Some(0))] {
        let number = 100 + 100 * u64::from(seat);
        record.join(seat, number, 0, contact).unwrap();
    }
    deliver_all(&mut record);
    record
}

/// Nothing but the one message is new; until it is delivered scans, turns and crashes
/// wait.
#[test]
fn the_first_hears_of_the_second() {
    let mut record = halves();
    record.merge(1, 3).unwrap();
    let pending: Vec<Message> = record.pending_messages().unwrap().collect();
    assert_eq!(pending, [meet(1, 3)]);
    assert_eq!(record.check(), Ok(true));
    assert_eq!(record.find(0, 450), Err(Refusal::Unsettled));
    assert_eq!(record.turn(), Err(Refusal::MessagesLeft));
    assert_eq!(record.crash(set(&[0])), Err(Refusal::MessagesLeft));
    // Without the message it is what it was.
    let mut bytes = record.clone().into_inner();
    let before = halves().into_inner();
    let differ: Vec<usize> = (0..bytes.len())
        .filter(|&at| bytes[at] != before[at])
        .collect();
    let [at] = differ[..] else {
        panic!("other bytes differ: {differ:?}")
    };
    assert_eq!((bytes[at] ^ before[at]).count_ones(), 1);
    bytes[at] = before[at];
    assert_eq!(bytes, before);
}

/// Whichever lots are named, and which of them first.
#[test]
fn two_halves_are_one() {
    for first in [0, 1, 3, 4] {
        for second in [0, 1, 3, 4] {
            let mut record = halves();
            if (first < 2) == (second < 2) {
                continue;
            }
            record.merge(first, second).unwrap();
            deliver_all(&mut record);
            assert_eq!(record, whole(), "{first} {second}");
            assert_eq!(found(&record, 0, 450), (Some(3), 2));
            assert_eq!(found(&record, 4, 350), (Some(1), 2));
        }
    }
}

/// By bundles, with merges that cross, and the same once more: it is there once.
#[test]
fn merges_cross() {
    let mut record = halves();
    for (first, second, pending) in [(0, 4, 1), (3, 1, 2), (0, 4, 2), (4, 0, 3)] {
        record.merge(first, second).unwrap();
        assert_eq!(record.counts().unwrap().pending, pending);
    }
    while record.bundle(2).unwrap() == 2 {}
    assert_eq!(record, whole());
}

#[test]
fn three_components_in_a_row() {
    let mut record = in_a_row(8);
    for gone in [2, 5] {
        record.crash(set(&[gone])).unwrap();
        deliver_all(&mut record);
    }
    record.merge(1, 3).unwrap();
    record.merge(4, 6).unwrap();
    deliver_all(&mut record);
    assert_eq!(record.check(), Ok(true));
    assert_eq!(found(&record, 0, 900), (Some(7), 5));
    assert_eq!(found(&record, 7, 150), (Some(0), 5));
}

/// Within a component all ends as without the merge, with joins on their way or not.
#[test]
fn within_a_component_nothing_comes_of_it() {
    let settled = q();
    for (first, second) in [(0, 1), (0, 2), (2, 0), (1, 2)] {
        let mut record = settled.clone();
        record.merge(first, second).unwrap();
        assert_eq!(record.is_pending(meet(first, second)), Ok(true));
        deliver_all(&mut record);
        assert_eq!(record, settled);
        let mut joining = three_lots();
        joining.merge(first, second).unwrap();
        deliver_all(&mut joining);
        assert_eq!(joining, settled);
    }
}

/// While a newcomer and a confirmed lot are on their way.
#[test]
fn a_merge_beside_newcomers() {
    let mut record = halves();
    record.reserve(9, 250, 128).unwrap();
    record.join(2, 450, 128, Some(1)).unwrap();
    record.merge(4, 0).unwrap();
    record.confirm(9, Some(3)).unwrap();
    record.merge(9, 2).unwrap();
    assert_eq!(record.counts().unwrap().pending, 4);
    deliver_all(&mut record);
    assert_eq!(record.check(), Ok(true));
    assert_eq!(record.link(9, 1, Side::Right), Ok(Some(2)));
    assert_eq!(record.link(1, 0, Side::Right), Ok(Some(9)));
    assert_eq!(found(&record, 0, 460), (Some(2), 3));
}

/// Leaving lots are named, and the two are one without them too.
#[test]
fn leaving_lots_may_be_named() {
    let mut record = halves();
    record.leave(1).unwrap();
    record.leave(3).unwrap();
    record.merge(1, 3).unwrap();
    assert_eq!(record.lot(1).unwrap().state, State::Leaving);
    deliver_all(&mut record);
    record.turn().unwrap();
    assert_eq!(record.counts().unwrap().phase, Phase::Clearing);
    refused(record.as_bytes(), 7, |record| record.merge(0, 4));
    deliver_all(&mut record);
    record.turn().unwrap();
    assert_eq!(record.link(0, 8, Side::Right), Ok(Some(4)));
    assert_eq!(record.link(4, 8, Side::Left), Ok(Some(0)));
}

/// What was merged may be cut again.
#[test]
fn crash_merge_join_crash() {
    let mut record = halves();
    record.merge(3, 0).unwrap();
    deliver_all(&mut record);
    record.join(2, 300, 0, Some(4)).unwrap();
    deliver_all(&mut record);
    assert_eq!(record, in_a_row(5));
    record.crash(set(&[2])).unwrap();
    deliver_all(&mut record);
    assert_eq!(record, halves());
}

#[test]
fn the_first_row_that_applies_is_given() {
    let mut open = q();
    open.reserve(3, 250, 0).unwrap();
    let rows = [
        (64, 64, 3),
        (0, 64, 3),
        (255, 9, 3),
        (0, 3, 8),
        (3, 0, 8),
        (0, 63, 8),
        (9, 1, 8),
        (9, 9, 8),
        (3, 3, 8),
        (0, 0, 15),
        (2, 2, 15),
    ];
    for (first, second, number) in rows {
        refused(open.as_bytes(), number, |record| {
            record.merge(first, second)
        });
    }
    let mut clearing = open.clone();
    clearing.leave(1).unwrap();
    clearing.turn().unwrap();
    for drained in [false, true] {
        if drained {
            deliver_all(&mut clearing);
        }
        for (first, second, number) in rows {
            let number = number.min(7);
            refused(clearing.as_bytes(), number, |record| {
                record.merge(first, second)
            });
        }
        refused(clearing.as_bytes(), 7, |record| record.merge(0, 2));
    }
}
