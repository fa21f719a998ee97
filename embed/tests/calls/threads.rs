//! Calls on different records at once, and readings of one record at once.

use crate::common::{three_lots, Owned};
use lots_record::{Found, Record, Side, LEVELS, SEATS};
use std::thread;

const THREADS: usize = 4;
const TURNS: usize = 20;

/// A record on which every call was made, from its opening on.
fn made() -> Owned {
    let mut record = Record::new();
    record.join(0, 1_000, 0, None).unwrap();
    for seat in 1..SEATS - 1 {
        let number = u64::from(seat.wrapping_mul(151));
        record.join(seat, number, seat << 2, Some(0)).unwrap();
    }
    record.reserve(SEATS - 1, 2_000, 7).unwrap();
    record.deliver_all().unwrap();
    record.confirm(SEATS - 1, Some(0)).unwrap();
    record.deliver_all().unwrap();
    record.leave(5).unwrap();
    record.turn().unwrap();
    record.bundle(10).unwrap();
    record.deliver_all().unwrap();
    record.turn().unwrap();
    record.crash(1 << 7).unwrap();
    record.merge(0, 1).unwrap();
    record
}

#[test]
fn calls_on_different_records() {
    let alone = made();
    let at_once: Vec<bool> = thread::scope(|scope| {
        let threads = [(); THREADS].map(|()| scope.spawn(|| (0..TURNS).all(|_| made() == alone)));
        threads.into_iter().map(|t| t.join().unwrap()).collect()
    });
    assert_eq!(at_once, [true; THREADS]);
}

/// What readings show: scans, links, counts of lots and of messages.
fn read(record: &Owned) -> (Vec<Found>, Vec<Option<u8>>, usize, usize) {
    let seats = || record.lots().unwrap().map(|(seat, _)| seat);
    let scans = seats().flat_map(|seat| record.find(seat, 250)).collect();
    let links = seats().flat_map(|seat| (0..LEVELS).map(move |level| (seat, level)));
    let links = links.map(|(seat, level)| record.link(seat, level, Side::Right).unwrap());
    let pending = record.pending_messages().unwrap().count();
    (scans, links.collect(), seats().count(), pending)
}

#[test]
fn readings_of_one_record() {
    let mut settled = made();
    settled.deliver_all().unwrap();
    for record in [settled, made(), three_lots()] {
        let alone = read(&record);
        let at_once: Vec<bool> = thread::scope(|scope| {
            let threads =
                [(); THREADS].map(|()| scope.spawn(|| (0..TURNS).all(|_| read(&record) == alone)));
            threads.into_iter().map(|t| t.join().unwrap()).collect()
        });
        assert_eq!(at_once, [true; THREADS]);
    }
}
