//! The last seat, the ends of the numbers, a full record, and bytes lent in
//! several ways.

use crate::common::{deliver_all, message_at, q, refused, smallest_pending, three_lots, PENDING};
use lots_record::{Counts, Found, Message, Phase, Record, Refusal, Side, SIZE};

#[test]
fn the_last_seat_and_the_ends_of_the_numbers() {
    let mut record = Record::new();
    record.join(63, 0, 0, None).unwrap();
    record.join(0, u64::MAX, 0, Some(63)).unwrap();
    deliver_all(&mut record);
    for level in 0..=8 {
        assert_eq!(record.link(63, level, Side::Left), Ok(None));
        assert_eq!(record.link(63, level, Side::Right), Ok(Some(0)));
        assert_eq!(record.link(0, level, Side::Left), Ok(Some(63)));
        assert_eq!(record.link(0, level, Side::Right), Ok(None));
    }
    assert_eq!(record.lot(63).unwrap().number, 0);
    assert_eq!(record.lot(0).unwrap().number, u64::MAX);
    let found = |start, number| {
        let Found { holder, hops } = record.find(start, number).unwrap();
        (holder, hops)
    };
    assert_eq!(found(63, u64::MAX), (Some(0), 1));
    assert_eq!(found(63, u64::MAX - 1), (Some(63), 0));
    assert_eq!(found(0, u64::MAX - 1), (Some(63), 1));
    assert_eq!(found(0, 0), (Some(63), 1));
}

/// Every message that seats 0 to 2 can have in phase open and more, ascending.
fn messages() -> Vec<Message> {
    let mut messages = Vec::new();
    for kind in 1..=3 {
        for to in 0..3 {
            for about in 0..3 {
                for level in 0..=8 {
                    let sides = [Side::Left, Side::Right].map(Side::number);
                    let message = |side| Message::new(kind, to, about, level, side);
                    messages.extend(sides.map(message));
                }
            }
        }
    }
    messages
}

#[test]
fn the_smallest_pending_is_the_first_bit_set() {
    let (messages, mut record) = (messages(), three_lots());
    while record.counts().unwrap().pending > 0 {
        let pending = |message: &&Message| record.is_pending(**message).unwrap();
        let smallest = messages.iter().find(pending).copied();
        assert_eq!(smallest, smallest_pending(record.as_bytes()));
        record.deliver(smallest.unwrap()).unwrap();
    }
    assert_eq!(record, q());
}

#[test]
fn the_largest_first_settles_to_the_same_record() {
    let (messages, mut record) = (messages(), three_lots());
    while record.counts().unwrap().pending > 0 {
        let pending = |message: &&Message| record.is_pending(**message).unwrap();
        let largest = *messages.iter().rev().find(pending).unwrap();
        record.deliver(largest).unwrap();
    }
    assert_eq!(record, q());
}

#[test]
fn a_full_record_settles_and_finds_every_holder() {
    let mut record = Record::new();
    // Multiplying by an odd number reaches every seat, and spreads the vectors.
    let lots: Vec<(u8, u64, u8)> = (0..64u8)
        .map(|i| {
            (
                i.wrapping_mul(37) % 64,
                10 * u64::from(i),
                i.wrapping_mul(151),
            )
        })
        .collect();
    for (i, &(seat, number, vector)) in lots.iter().enumerate() {
        let contact = (i > 0).then(|| lots[i / 2].0);
        record.join(seat, number, vector, contact).unwrap();
    }
    assert_eq!(record.find(0, 0), Err(Refusal::Unsettled));
    deliver_all(&mut record);
    let counts = Counts {
        lots: 64,
        phase: Phase::Open,
        pending: 0,
    };
    assert_eq!(record.counts(), Ok(counts));
    assert_eq!(record.check(), Ok(true));
    for &(seat, number, _) in &lots {
        for scanned in [number, number + 9] {
            assert_eq!(record.find(0, scanned).unwrap().holder, Some(seat));
        }
    }
    // Of the lots, ascending by number, those on the seats above stay.
    for seat in 0..64 {
        record.leave(seat).unwrap();
        let stays = |lot: &&(u8, u64, u8)| lot.0 > seat;
        let largest = lots.iter().rev().find(stays).map(|lot| lot.0);
        assert_eq!(record.find(seat, u64::MAX).unwrap().holder, largest);
    }
    record.turn().unwrap();
    assert_eq!(record.find(0, 0), Err(Refusal::Unsettled));
}

/// All lots are one list at each level: a scan walks along it to the end, and then
/// back to the only lot that stays, or to nobody.
#[test]
fn a_full_row_of_leaving_lots() {
    let mut record = Record::new();
    for seat in 0..64u8 {
        let contact = seat.checked_sub(1);
        record.join(seat, u64::from(seat), 0, contact).unwrap();
    }
    deliver_all(&mut record);
    for seat in 1..64 {
        record.leave(seat).unwrap();
    }
    let found = |holder, hops| Ok(Found { holder, hops });
    assert_eq!(record.find(0, 63), found(Some(0), 126));
    assert_eq!(record.find(63, 63), found(Some(0), 63));
    record.leave(0).unwrap();
    assert_eq!(record.find(0, 63), found(None, 126));
    assert_eq!(record.find(63, 63), found(None, 63));
}

/// One bit in all, the first or the last that a message of phase open has here.
#[test]
fn a_scan_waits_for_the_first_and_the_last_message() {
    let mut record = Record::new();
    record.join(0, 100, 0, None).unwrap();
    record.join(1, 200, 128, Some(0)).unwrap();
    record.join(63, 300, 64, Some(0)).unwrap();
    deliver_all(&mut record);
    assert_eq!(record.find(0, 250).unwrap().holder, Some(1));
    let (first, last) = (Message::new(1, 0, 1, 0, 0), Message::new(3, 63, 1, 7, 1));
    for message in [first, last] {
        let place = (0..).find(|&place| message_at(place) == message).unwrap();
        let mut bytes = record.as_bytes().to_vec();
        bytes[PENDING + place as usize / 8] |= 1 << (place % 8);
        assert_eq!(smallest_pending(&bytes), Some(message));
        assert_eq!(Record::over(&bytes).check(), Ok(true));
        refused(&bytes, 13, |record| record.find(0, 250).map(drop));
        let mut delivered = Record::over(bytes);
        delivered.bundle(u16::MAX).unwrap();
        assert_eq!(delivered.as_bytes(), record.as_bytes());
    }
}

#[test]
fn bytes_may_be_owned_or_borrowed() {
    let mut array = [9; SIZE];
    let mut lent = Record::over(&mut array);
    lent.open().unwrap();
    lent.join(0, 100, 0, None).unwrap();

    let shared = Record::over(&array[..]);
    assert_eq!(shared.lot(0).unwrap().number, 100);

    let mut boxed = Record::over(array.to_vec().into_boxed_slice());
    boxed.leave(0).unwrap();
    assert_eq!(array[1], 1);
    assert_eq!(boxed.into_inner()[1], 2);
}
