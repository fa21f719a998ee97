//! Lots and pending messages gone through by the safe crate, and all messages delivered
//! by it, held against the bytes as `compare::lent` reads them: on sound records put
//! together field by field, on those that calls lead to, and on damaged copies of both.

use compare::inputs::{self, Style};
use compare::lent::place::PENDING_AT;
use compare::lent::{self, message_at};
use compare::random::Random;
use lots_record::{Lots, Record, Refusal, State, SEATS};

const RECORDS: u64 = 1_000;
/// Calls on a record before it is looked at again.
const CALLS: usize = 30;

/// A seat, and the state, number and vector of its lot.
type Row = (u8, u8, u64, u8);

/// What was met, so that nothing is passed over.
#[derive(Default, Debug)]
struct Met {
    of_wrong_size: u64,
    unsound: u64,
    sound: u64,
    with_reserved: u64,
    with_leaving: u64,
    pending: u64,
    delivered: u64,
}

fn rows(lots: Result<Lots<'_>, Refusal>) -> Result<Vec<Row>, u8> {
    let row =
        |(seat, lot): (u8, lots_record::Lot)| (seat, lot.state.number(), lot.number, lot.vector);
    lots.map(|lots| lots.map(row).collect())
        .map_err(Refusal::number)
}

/// The lots of a sound record, read seat by seat.
fn read_singly(bytes: &[u8]) -> Vec<Row> {
    let row = |seat| {
        let lot = lent::read_lot(bytes, seat).ok()?;
        Some((seat, lot.state, lot.number, lot.vector))
    };
    (0..SEATS).filter_map(row).collect()
}

/// The messages of the pending bits that are set.
fn set_bits(bytes: &[u8]) -> Vec<[u8; 5]> {
    let places = (0..)
        .zip(&bytes[PENDING_AT..])
        .filter(|(_, byte)| **byte != 0);
    let places =
        places.flat_map(|(at, byte)| (0..8).map(move |bit| (8 * at + bit, byte >> bit & 1)));
    let set = places.filter(|(_, bit)| *bit == 1);
    let messages = set.map(|(place, _)| message_at(place));
    messages
        .map(|m| [m.kind, m.to, m.about, m.level, m.side])
        .collect()
}

/// What the crate lists, as numbers.
fn listed(record: &Record<&[u8]>) -> Result<Vec<[u8; 5]>, u8> {
    let pending = record.pending_messages().map_err(Refusal::number)?;
    Ok(pending
        .map(|m| [m.kind, m.to, m.about, m.level, m.side])
        .collect())
}

/// Bundles in Rust until one is not full: how many deliveries, and the bytes after.
fn delivered(bytes: &[u8]) -> (u64, Vec<u8>) {
    let (mut all, mut after) = (0, bytes.to_vec());
    loop {
        let delivered = lent::bundle(&mut after, u16::MAX).expect("the record is sound");
        all += u64::from(delivered);
        if delivered < u16::MAX {
            return (all, after);
        }
    }
}

fn go_through(bytes: &[u8], met: &mut Met) {
    let record = Record::over(bytes);
    let mut lent = Record::over(bytes.to_vec());
    let all = lent.deliver_all().map_err(Refusal::number);
    let after = lent.into_inner();
    if let Err(refusal) = lent::validate(bytes) {
        let refusal = refusal.number();
        assert_eq!(rows(record.lots()), Err(refusal));
        assert_eq!(rows(record.taken()), Err(refusal));
        assert_eq!(listed(&record), Err(refusal));
        assert_eq!(all, Err(refusal));
        assert!(after == bytes);
        met.of_wrong_size += u64::from(refusal == 1);
        met.unsound += u64::from(refusal == 2);
        return;
    }
    let taken = read_singly(bytes);
    let mut seated = taken.clone();
    seated.retain(|row| row.1 != State::Reserved.number());
    let leaving = taken.iter().any(|row| row.1 == State::Leaving.number());
    assert_eq!(rows(record.lots()).as_ref(), Ok(&seated));
    assert_eq!(rows(record.taken()).as_ref(), Ok(&taken));
    assert_eq!(record.counts().unwrap().lots as usize, seated.len());
    let pending = set_bits(bytes);
    assert_eq!(listed(&record).as_ref(), Ok(&pending));
    assert_eq!(record.counts().unwrap().pending as usize, pending.len());
    let (deliveries, expected) = delivered(bytes);
    assert_eq!(all, Ok(deliveries));
    assert!(after == expected);
    met.sound += 1;
    met.with_reserved += u64::from(seated.len() < taken.len());
    met.with_leaving += u64::from(leaving);
    met.pending += pending.len() as u64;
    met.delivered += deliveries;
}

#[test]
fn what_is_gone_through_is_what_single_readings_show() {
    let mut met = Met::default();
    for index in 0..RECORDS {
        let mut random = Random::of_script(5, index);
        let pools = inputs::pools(&mut random);
        let mut bytes = match random.one_in(2) {
            true => inputs::sound_record(&pools, &mut random),
            false => robust::round::opened(),
        };
        for _ in 0..3 {
            go_through(&bytes, &mut met);
            let mut damaged = bytes.clone();
            inputs::damage(&mut damaged, &mut random);
            go_through(&damaged, &mut met);
            let style = random.pick(&Style::ALL);
            for _ in 0..CALLS {
                inputs::call(&bytes, style, &pools, &mut random).on_bytes(&mut bytes);
            }
        }
    }
    println!("{met:?}");
    assert!(met.of_wrong_size > 100 && met.unsound > 1_000 && met.sound > 3_000);
    assert!(met.with_reserved > 500 && met.with_leaving > 500);
    assert!(met.pending > 10_000 && met.delivered > met.pending);
}
