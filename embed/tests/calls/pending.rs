//! Listing what is pending: ascending, each message once, from any numbers on.

use crate::common::{q, smallest_pending, three_lots, Owned};
use lots_record::{Message, Record, Refusal, SIZE};

/// Every message that seats 0 to 2 can have, and more; not in order.
fn messages() -> Vec<Message> {
    let mut messages = Vec::new();
    for side in [1, 0] {
        for level in 0..=8 {
            for about in 0..3 {
                for to in 0..3 {
                    let kinds = 1..=7;
                    messages.extend(kinds.map(|kind| Message::new(kind, to, about, level, side)));
                }
            }
        }
    }
    messages
}

/// Asked of each message by itself, then sorted.
fn asked(record: &Owned) -> Vec<Message> {
    let mut pending = messages();
    pending.retain(|&message| record.is_pending(message).unwrap());
    pending.sort();
    pending
}

fn listed(record: &Owned) -> Vec<Message> {
    record.pending_messages().unwrap().collect()
}

/// The records on the way to a settled one, in both phases.
fn records() -> Vec<Owned> {
    let mut records = Vec::new();
    let mut record = three_lots();
    for leaver in [Some(1), None] {
        while let Some(smallest) = smallest_pending(record.as_bytes()) {
            records.push(record.clone());
            record.deliver(smallest).unwrap();
        }
        records.push(record.clone());
        if let Some(seat) = leaver {
            record.leave(seat).unwrap();
            record.turn().unwrap();
        }
    }
    records
}

#[test]
fn the_list_is_what_is_pending_in_order() {
    let records = records();
    assert!(records.len() > 20);
    for record in records {
        let pending = listed(&record);
        assert_eq!(pending, asked(&record));
        assert_eq!(pending.len(), record.counts().unwrap().pending as usize);
        assert_eq!(
            pending.first().copied(),
            smallest_pending(record.as_bytes())
        );
    }
}

#[test]
fn from_any_numbers_on() {
    let values = [0, 1, 2, 7, 8, 9, 63, 64, 255];
    for record in records().into_iter().step_by(5) {
        let pending = listed(&record);
        for kind in values {
            for to in values {
                for (about, level, side) in
                    [(0, 0, 0), (0, 8, 2), (1, 255, 0), (64, 0, 0), (2, 0, 1)]
                {
                    let from = Message::new(kind, to, about, level, side);
                    let next = pending.iter().find(|&&message| message >= from);
                    assert_eq!(record.next_message(from), Ok(next.copied()), "{from:?}");
                }
            }
        }
    }
}

#[test]
fn at_a_message_and_after_it() {
    let record = three_lots();
    let pending = listed(&record);
    assert_eq!(
        pending,
        [Message::new(1, 0, 1, 0, 0), Message::new(1, 0, 2, 0, 0)]
    );
    for (index, &message) in pending.iter().enumerate() {
        assert_eq!(record.next_message(message), Ok(Some(message)));
        let after = Message { side: 1, ..message };
        assert_eq!(
            record.next_message(after),
            Ok(pending.get(index + 1).copied())
        );
    }
}

#[test]
fn nothing_is_pending() {
    for record in [Record::new(), q()] {
        assert_eq!(record.next_message(Message::FIRST), Ok(None));
        let mut pending = record.pending_messages().unwrap();
        assert_eq!((pending.next(), pending.next()), (None, None));
    }
}

/// What was sent to one lot by 63 others, and by it to them.
#[test]
fn a_full_record_lists_every_message() {
    let mut record = Record::new();
    record.join(0, 1_000, 0, None).unwrap();
    for seat in 1..64 {
        record
            .join(seat, u64::from(seat), seat << 2, Some(0))
            .unwrap();
    }
    let meets: Vec<Message> = (1..64).map(|seat| Message::new(1, 0, seat, 0, 0)).collect();
    assert_eq!(listed(&record), meets);
    for message in meets {
        record.deliver(message).unwrap();
    }
    let pending = listed(&record);
    assert_eq!(pending.len(), record.counts().unwrap().pending as usize);
    assert!(pending.windows(2).all(|pair| pair[0] < pair[1]));
    assert!(pending
        .iter()
        .all(|&message| record.is_pending(message) == Ok(true)));
}

#[test]
fn a_list_of_no_record_is_refused() {
    let refused = |bytes: &[u8]| Record::over(bytes).pending_messages().map(drop);
    assert_eq!(refused(&[]), Err(Refusal::WrongSize));
    assert_eq!(refused(&[0; SIZE]), Err(Refusal::Unsound));
}
