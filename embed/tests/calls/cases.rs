//! The worked cases of document 01 that speak of calls, (b) to (h), (k) and (l),
//! and the scans of document 02 that wait and that go past leaving lots.

use crate::common::{deliver_all, q, refused, three_lots, Owned};
use lots_record::{Counts, Found, Lot, Phase, Record, Side, State};

fn find(record: &Owned, start: u8, number: u64) -> (Option<u8>, u64) {
    let Found { holder, hops } = record.find(start, number).unwrap();
    (holder, hops)
}

fn find_in_q(start: u8, number: u64) -> (Option<u8>, u64) {
    find(&q(), start, number)
}

#[test]
fn q_reads_as_the_example_prints_it() {
    let q = q();
    let counts = Counts {
        lots: 3,
        phase: Phase::Open,
        pending: 0,
    };
    assert_eq!(q.counts(), Ok(counts));
    for (seat, number, vector) in [(0, 100, 0), (1, 200, 128), (2, 300, 64)] {
        let state = State::Staying;
        let lot = Lot {
            state,
            number,
            vector,
        };
        assert_eq!(q.lot(seat), Ok(lot));
    }
    // 100 200 300 at level 0, 100 300 at level 1, and no list of two above.
    let links = |seat, level| {
        (
            q.link(seat, level, Side::Left),
            q.link(seat, level, Side::Right),
        )
    };
    assert_eq!(links(0, 0), (Ok(None), Ok(Some(1))));
    assert_eq!(links(1, 0), (Ok(Some(0)), Ok(Some(2))));
    assert_eq!(links(2, 0), (Ok(Some(1)), Ok(None)));
    assert_eq!(links(0, 1), (Ok(None), Ok(Some(2))));
    assert_eq!(links(1, 1), (Ok(None), Ok(None)));
    assert_eq!(links(2, 1), (Ok(Some(0)), Ok(None)));
    for (seat, level) in (0..3).flat_map(|seat| (2..=8).map(move |level| (seat, level))) {
        assert_eq!(links(seat, level), (Ok(None), Ok(None)));
    }
    assert_eq!(q.check(), Ok(true));
    assert_eq!(find_in_q(0, 250), (Some(1), 1));
}

#[test]
fn case_b_below_all() {
    assert_eq!(find_in_q(0, 99), (None, 0));
}

#[test]
fn case_c_equal_by_level_1() {
    assert_eq!(find_in_q(0, 300), (Some(2), 1));
}

#[test]
fn case_d_from_above() {
    assert_eq!(find_in_q(2, 250), (Some(1), 1));
}

#[test]
fn case_e_leftward_equal() {
    assert_eq!(find_in_q(2, 100), (Some(0), 1));
}

#[test]
fn case_f_number_in_use() {
    refused(q().as_bytes(), 5, |record| record.join(3, 200, 0, Some(0)));
}

#[test]
fn case_g_no_such_seat() {
    refused(q().as_bytes(), 3, |record| record.join(64, 400, 0, Some(0)));
}

#[test]
fn case_h_no_contact() {
    let empty = Record::new();
    refused(empty.as_bytes(), 6, |record| record.join(0, 1, 0, Some(0)));
}

#[test]
fn case_k_the_middle_lot_leaves() {
    let mut record = q();
    record.leave(1).unwrap();
    assert_eq!(find(&record, 0, 250), (Some(0), 2));
    record.turn().unwrap();
    assert_eq!(record.counts().unwrap().phase, Phase::Clearing);
    assert_eq!(record.check(), Ok(false));
    deliver_all(&mut record);
    assert_eq!(record.check(), Ok(true));
    record.turn().unwrap();
    let counts = Counts {
        lots: 2,
        phase: Phase::Open,
        pending: 0,
    };
    assert_eq!(record.counts(), Ok(counts));
    for level in [0, 1] {
        assert_eq!(record.link(0, level, Side::Left), Ok(None));
        assert_eq!(record.link(0, level, Side::Right), Ok(Some(2)));
        assert_eq!(record.link(2, level, Side::Left), Ok(Some(0)));
        assert_eq!(record.link(2, level, Side::Right), Ok(None));
    }
    // The freed seat is usable again.
    record.join(1, 200, 128, Some(2)).unwrap();
    deliver_all(&mut record);
    assert_eq!(record, q());
}

#[test]
fn case_l_a_sole_lot_leaves() {
    let mut record = Record::new();
    record.join(5, 7, 0, None).unwrap();
    record.leave(5).unwrap();
    record.turn().unwrap();
    assert_eq!(record.counts().unwrap().phase, Phase::Clearing);
    record.turn().unwrap();
    assert_eq!(record, Record::new());
}

/// Delivers all messages one by one; before each of them a scan is refused.
fn deliver_all_waiting(record: &mut Owned) {
    while record.counts().unwrap().pending > 0 {
        a_scan_waits(record);
        assert_eq!(record.bundle(1), Ok(1));
    }
}

fn a_scan_waits(record: &Owned) {
    for start in 0..3 {
        refused(record.as_bytes(), 13, |record| {
            record.find(start, 250).map(drop)
        });
    }
}

/// While messages are pending, and in phase clearing with them and without; but
/// not for a lot that is leaving in phase open.
#[test]
fn a_scan_waits_for_a_settled_record() {
    let mut record = three_lots();
    deliver_all_waiting(&mut record);
    assert_eq!(find(&record, 0, 250), (Some(1), 1));
    record.leave(1).unwrap();
    assert_eq!(find(&record, 0, 250), (Some(0), 2));
    assert_eq!(find(&record, 1, 250), (Some(0), 1));
    record.turn().unwrap();
    deliver_all_waiting(&mut record);
    a_scan_waits(&record);
    record.turn().unwrap();
    assert_eq!(find(&record, 0, 250), (Some(0), 0));
}

/// Lot 200 leaves, then 300, then 100.
#[test]
fn a_leaving_lot_takes_no_scans() {
    let mut record = q();
    record.leave(1).unwrap();
    // From its left, from its right past the walk's end, from itself; by its number.
    assert_eq!(find(&record, 0, 250), (Some(0), 2));
    assert_eq!(find(&record, 2, 250), (Some(0), 2));
    assert_eq!(find(&record, 1, 250), (Some(0), 1));
    assert_eq!(find(&record, 0, 200), (Some(0), 2));
    // Not on the way.
    assert_eq!(find(&record, 0, 300), (Some(2), 1));
    assert_eq!(find(&record, 0, 99), (None, 0));
    record.leave(2).unwrap();
    assert_eq!(find(&record, 0, 300), (Some(0), 3));
    assert_eq!(find(&record, 2, 300), (Some(0), 2));
    record.leave(0).unwrap();
    assert_eq!(find(&record, 0, 300), (None, 3));
    assert_eq!(find(&record, 0, 250), (None, 2));
    assert_eq!(find(&record, 0, 100), (None, 0));
}
