//! Going through the lots, held against reading each seat by itself.

use crate::common::{deliver_all, q, three_lots, Owned};
use lots_record::{Lot, Record, State, SEATS};

fn is_seated(lot: &Lot) -> bool {
    lot.state != State::Reserved
}

/// The lots on all seats, read one by one.
fn read_singly(record: &Owned) -> Vec<(u8, Lot)> {
    let lot = |seat| Some((seat, record.lot(seat).ok()?));
    (0..=255).filter_map(lot).collect()
}

/// Both ways of going through show what single readings show; how many they are.
fn go_through(record: &Owned) -> (usize, usize) {
    let taken = read_singly(record);
    let mut seated = taken.clone();
    seated.retain(|(_, lot)| is_seated(lot));
    assert_eq!(record.lots().unwrap().collect::<Vec<_>>(), seated);
    assert_eq!(record.taken().unwrap().collect::<Vec<_>>(), taken);
    assert_eq!(usize::from(record.counts().unwrap().lots), seated.len());
    (seated.len(), taken.len())
}

#[test]
fn lots_of_every_state() {
    let mut record = three_lots();
    assert_eq!(go_through(&record), (3, 3));
    record.reserve(63, 400, 7).unwrap();
    record.reserve(10, 50, 7).unwrap();
    assert_eq!(go_through(&record), (3, 5));
    deliver_all(&mut record);
    record.leave(0).unwrap();
    assert_eq!(go_through(&record), (3, 5));
    record.turn().unwrap();
    deliver_all(&mut record);
    assert_eq!(go_through(&record), (3, 5));
    record.turn().unwrap();
    assert_eq!(go_through(&record), (2, 4));
    record.crash(0b110).unwrap();
    assert_eq!(go_through(&record), (0, 2));
}

#[test]
fn no_lots() {
    assert_eq!(go_through(&Record::new()), (0, 0));
}

/// Every other seat is reserved, the first or the last one among them.
#[test]
fn all_seats_are_taken() {
    for odd in [0, 1] {
        let mut record = Record::new();
        for seat in 0..SEATS {
            let number = 1_000 - u64::from(seat);
            match seat % 2 == odd {
                true => record.reserve(seat, number, seat),
                false => record.join(seat, number, seat, seat.checked_sub(2)),
            }
            .unwrap();
        }
        assert_eq!(go_through(&record), (32, 64));
    }
}

#[test]
fn the_end_stays_the_end() {
    let mut record = q();
    record.reserve(63, 400, 0).unwrap();
    let (mut lots, mut taken) = (record.lots().unwrap(), record.taken().unwrap());
    assert_eq!((lots.by_ref().count(), taken.by_ref().count()), (3, 4));
    assert_eq!((lots.next(), lots.next()), (None, None));
    assert_eq!((taken.next(), taken.next()), (None, None));
    assert_eq!(lots.size_hint(), (0, Some(0)));
}

#[test]
fn a_copy_goes_on_by_itself() {
    let record = q();
    let mut lots = record.lots().unwrap();
    assert_eq!(lots.next().unwrap().0, 0);
    let copy = lots.clone();
    assert_eq!(lots.map(|(seat, _)| seat).collect::<Vec<_>>(), [1, 2]);
    assert_eq!(copy.map(|(seat, _)| seat).collect::<Vec<_>>(), [1, 2]);
}
