//! A scale dies: document 02, #106.

use crate::common::{deliver_all, found, in_a_row, q, refused, set, three_lots, Owned};
use lots_record::{Counts, Message, Phase, Record, Side, State};

/// Where the entry of a seat begins, by docs/RECORD.md.
const fn entry(seat: usize) -> usize {
    1 + 28 * seat
}

/// 300 of 100 to 400 dies: 100 and 200 are a component, 400 is another, and neither
/// sees the other.
#[test]
fn two_components_stand() {
    let mut record = in_a_row(4);
    record.crash(set(&[2])).unwrap();
    let left = Counts {
        lots: 3,
        phase: Phase::Open,
        pending: 2,
    };
    assert_eq!(record.counts(), Ok(left));
    assert_eq!(record.link(1, 0, Side::Right), Ok(None));
    assert_eq!(record.link(3, 8, Side::Left), Ok(None));
    assert_eq!(record.link(0, 8, Side::Right), Ok(Some(1)));
    deliver_all(&mut record);
    assert_eq!(record.check(), Ok(true));
    assert_eq!(found(&record, 0, 450), (Some(1), 1));
    assert_eq!(found(&record, 1, 150), (Some(0), 1));
    assert_eq!(found(&record, 3, 450), (Some(3), 0));
    assert_eq!(found(&record, 3, 350), (None, 0));
}

/// Who joins is one with its contact, wherever its number lies.
#[test]
fn a_newcomer_belongs_to_its_contact() {
    let mut record = in_a_row(4);
    record.crash(set(&[2])).unwrap();
    deliver_all(&mut record);
    record.join(2, 50, 128, Some(3)).unwrap();
    assert_eq!(record.check(), Ok(true));
    deliver_all(&mut record);
    assert_eq!(record.check(), Ok(true));
    assert_eq!(record.link(2, 0, Side::Right), Ok(Some(3)));
    assert_eq!(found(&record, 3, 250), (Some(2), 1));
    assert_eq!(found(&record, 0, 60), (None, 0));
}

/// In Q 100 and 300 know each other at level 1, and meet at level 0.
#[test]
fn a_link_above_level_0_mends() {
    let mut record = q();
    record.crash(set(&[1])).unwrap();
    let pending: Vec<Message> = record.pending_messages().unwrap().collect();
    let meet = |to, about| Message::new(1, to, about, 0, 0);
    assert_eq!(pending, [meet(0, 2), meet(2, 0)]);
    assert_eq!(record.link(0, 0, Side::Right), Ok(None));
    assert_eq!(record.link(0, 1, Side::Right), Ok(Some(2)));
    assert_eq!(record.check(), Ok(false));
    deliver_all(&mut record);
    assert_eq!(record.link(0, 0, Side::Right), Ok(Some(2)));
    assert_eq!(record.check(), Ok(true));
    assert_eq!(found(&record, 0, 350), (Some(2), 1));
}

/// Components that lost nobody send too, and stay as they were.
#[test]
fn an_untouched_component_sends() {
    let mut record = in_a_row(5);
    record.crash(set(&[2])).unwrap();
    deliver_all(&mut record);
    let before = record.clone();
    record.crash(set(&[3])).unwrap();
    assert_eq!(record.is_pending(Message::new(1, 0, 1, 0, 0)), Ok(true));
    assert_eq!(record.is_pending(Message::new(1, 1, 0, 0, 0)), Ok(true));
    assert_eq!(record.counts().unwrap().pending, 2);
    deliver_all(&mut record);
    for seat in 0..2 {
        let bytes = |record: &Owned| record.as_bytes()[entry(seat)..entry(seat + 1)].to_vec();
        assert_eq!(bytes(&record), bytes(&before));
    }
    assert_eq!(found(&record, 4, 450), (None, 0));
}

/// Their entries are those of free seats, and all else is as it was.
#[test]
fn entries_become_free() {
    let mut record = q();
    record.crash(set(&[1, 2])).unwrap();
    let mut alone = Record::new();
    alone.join(0, 100, 0, None).unwrap();
    assert_eq!(record, alone);
    record.crash(set(&[0])).unwrap();
    assert_eq!(record, Record::new());
}

#[test]
fn leaving_lots_may_be_named_and_reserved_ones_stay() {
    let mut record = in_a_row(4);
    record.reserve(63, 50, 7).unwrap();
    record.leave(0).unwrap();
    record.leave(1).unwrap();
    record.crash(set(&[1])).unwrap();
    deliver_all(&mut record);
    assert_eq!(record.lot(0).unwrap().state, State::Leaving);
    assert_eq!(record.lot(63).unwrap().state, State::Reserved);
    // 100 is alone, and leaving.
    assert_eq!(found(&record, 0, 350), (None, 0));
    assert_eq!(found(&record, 2, 350), (Some(2), 0));
    record.turn().unwrap();
    assert_eq!(record.check(), Ok(true));
    record.turn().unwrap();
    assert_eq!(record.counts().unwrap().lots, 2);
    assert_eq!(found(&record, 2, 450), (Some(3), 1));
}

#[test]
fn the_first_row_that_applies_is_given() {
    let mut open = q();
    open.reserve(3, 250, 0).unwrap();
    for seats in [set(&[3]), set(&[0, 3]), set(&[0, 63]), u64::MAX] {
        refused(open.as_bytes(), 8, |record| record.crash(seats));
    }
    let mut pending = three_lots();
    pending.reserve(3, 250, 0).unwrap();
    for (seats, number) in [(&[][..], 11), (&[1], 11), (&[3], 8), (&[0, 9], 8)] {
        refused(pending.as_bytes(), number, |record| {
            record.crash(set(seats))
        });
    }
    let mut clearing = open.clone();
    clearing.leave(1).unwrap();
    clearing.turn().unwrap();
    for drained in [false, true] {
        if drained {
            deliver_all(&mut clearing);
        }
        for seats in [&[][..], &[0], &[1], &[3], &[9]] {
            refused(clearing.as_bytes(), 7, |record| record.crash(set(seats)));
        }
    }
}

#[test]
fn nobody_changes_nothing() {
    for mut record in [Record::new(), q(), in_a_row(5)] {
        let before = record.clone();
        record.crash(0).unwrap();
        assert_eq!(record, before);
    }
}

/// Also held by one end alone, which no calls lead to.
#[test]
fn a_link_of_one_end_sends_to_both() {
    // The right link of 100 at level 1, the left one of 300.
    for at in [entry(0) + 13, entry(2) + 12] {
        let mut bytes = q().into_inner();
        assert_ne!(bytes[at], 255);
        bytes[at] = 255;
        let mut record = Record::over(bytes);
        record.crash(set(&[1])).unwrap();
        assert_eq!(record.counts().unwrap().pending, 2);
        assert_eq!(record.is_pending(Message::new(1, 0, 2, 0, 0)), Ok(true));
        assert_eq!(record.is_pending(Message::new(1, 2, 0, 0, 0)), Ok(true));
    }
}
