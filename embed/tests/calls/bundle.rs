//! Deliveries by the bundle, held against single deliveries of the smallest.

use crate::common::{q, smallest_pending, three_lots, Owned};
use lots_record::{Message, Phase, Record};

/// Single deliveries of the smallest, at most so many: how many there were.
fn deliver_singly(record: &mut Owned, most: u16) -> u16 {
    let mut deliveries = 0;
    while deliveries < most {
        let Some(smallest) = smallest_pending(record.as_bytes()) else {
            break;
        };
        record.deliver(smallest).unwrap();
        deliveries += 1;
    }
    deliveries
}

/// Makes a bundle beside single deliveries; the count.
fn bundle(record: &mut Owned, limit: u16) -> u16 {
    let mut singly = record.clone();
    let deliveries = deliver_singly(&mut singly, limit);
    assert_eq!(record.bundle(limit), Ok(deliveries));
    assert_eq!(*record, singly);
    let left = record.counts().unwrap().pending;
    assert!(deliveries == limit || deliveries < limit && left == 0);
    deliveries
}

/// Lots on all seats that join at the first.
fn full() -> Owned {
    let mut record = Record::new();
    record.join(0, 500, 0, None).unwrap();
    for seat in 1..64u8 {
        let number = u64::from(seat.wrapping_mul(151)) * 1_000;
        let vector = seat.wrapping_mul(37);
        record.join(seat, number, vector, Some(0)).unwrap();
    }
    record
}

#[test]
fn every_limit_on_three_lots() {
    let all = bundle(&mut three_lots(), u16::MAX);
    for limit in 0..=all + 2 {
        let mut record = three_lots();
        assert_eq!(bundle(&mut record, limit), limit.min(all));
        assert_eq!(record == q(), limit >= all);
    }
}

#[test]
fn limits_one_after_the_other_on_a_full_record() {
    let (mut record, mut whole) = (full(), full());
    let mut delivered = 0;
    for limit in [0, 1, 2, 3, 0, 10, 100, 1_000, u16::MAX, u16::MAX] {
        delivered += bundle(&mut record, limit);
    }
    assert_eq!(record.check(), Ok(true));
    assert_eq!(bundle(&mut whole, u16::MAX), delivered);
    assert_eq!(record, whole);
}

#[test]
fn in_clearing() {
    let mut record = full();
    bundle(&mut record, u16::MAX);
    for seat in (0..64).step_by(3) {
        record.leave(seat).unwrap();
    }
    record.turn().unwrap();
    for limit in [0, 1, 50, u16::MAX] {
        bundle(&mut record, limit);
        assert_eq!(record.counts().unwrap().phase, Phase::Clearing);
    }
    assert_eq!(record.check(), Ok(true));
    record.turn().unwrap();
    assert_eq!(record.check(), Ok(true));
}

/// Not 10 as a delivery, nor 11 as a turn.
#[test]
fn nothing_pending_is_accepted() {
    for mut record in [Record::new(), q()] {
        let before = record.clone();
        for limit in [0, 1, u16::MAX] {
            assert_eq!(record.bundle(limit), Ok(0));
        }
        assert_eq!(record, before);
    }
}

/// MEET to seat 0 about seat 2 comes before what MEET about seat 1 has sent.
#[test]
fn the_smallest_and_not_the_first_sent() {
    let mut record = three_lots();
    assert_eq!(record.bundle(2), Ok(2));
    let pending: Vec<Message> = record.pending_messages().unwrap().collect();
    let sent = [[1, 1, 0, 0, 0], [1, 1, 2, 0, 0], [2, 1, 0, 0, 0]];
    let sent =
        sent.map(|[kind, to, about, level, side]| Message::new(kind, to, about, level, side));
    assert_eq!(pending, sent);
}

/// 65,821 deliveries, more than the largest bundle makes.
fn long() -> Owned {
    let mut record = Record::new();
    record.join(0, 64, 0, None).unwrap();
    for seat in 1..64u8 {
        let vector = if seat <= 8 { 128 >> (seat - 1) } else { 0 };
        record.join(seat, seat.into(), vector, Some(0)).unwrap();
    }
    record
}

#[test]
fn more_than_one_bundle() {
    let mut record = long();
    assert_eq!(record.bundle(u16::MAX), Ok(u16::MAX));
    assert!(record.counts().unwrap().pending > 0);
    assert_eq!(record.bundle(u16::MAX), Ok(286));
    assert_eq!(record.check(), Ok(true));
}

/// The same bytes as by bundles of one each, and their number.
#[test]
fn all_at_once() {
    let mut clearing = q();
    clearing.leave(1).unwrap();
    clearing.turn().unwrap();
    for mut record in [Record::new(), three_lots(), q(), clearing, full(), long()] {
        let (mut all, mut singly) = (0, record.clone());
        while singly.bundle(1) == Ok(1) {
            all += 1;
        }
        assert_eq!(record.deliver_all(), Ok(all));
        assert_eq!(record, singly);
        assert_eq!(record.counts().unwrap().pending, 0);
        assert_eq!(record.deliver_all(), Ok(0));
    }
}
