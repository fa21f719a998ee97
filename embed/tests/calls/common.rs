//! What the tests share: record Q, delivery in order, and a watch on refusals.

use lots_record::{Found, Message, Record, Refusal, SIZE};

pub type Owned = Record<[u8; SIZE]>;

/// Lots 100, 200 and 300 on seats 0 to 2, nothing delivered.
pub fn three_lots() -> Owned {
    let mut record = Record::new();
    record.join(0, 100, 0, None).unwrap();
    record.join(1, 200, 128, Some(0)).unwrap();
    record.join(2, 300, 64, Some(0)).unwrap();
    record
}

/// The settled record Q of document 01.
pub fn q() -> Owned {
    let mut record = three_lots();
    deliver_all(&mut record);
    record
}

/// A set of seats.
pub fn set(seats: &[u8]) -> u64 {
    seats.iter().fold(0, |set, seat| set | 1 << seat)
}

/// So many lots, 100, 200 and so on, on seats from 0 on, all with vector 0 and so in
/// one row at each level; settled.
pub fn in_a_row(lots: u8) -> Owned {
    let mut record = Record::new();
    for seat in 0..lots {
        let contact = (seat > 0).then_some(0);
        let number = 100 + 100 * u64::from(seat);
        record.join(seat, number, 0, contact).unwrap();
    }
    deliver_all(&mut record);
    record
}

pub fn found(record: &Owned, start: u8, number: u64) -> (Option<u8>, u64) {
    let Found { holder, hops } = record.find(start, number).unwrap();
    (holder, hops)
}

/// Delivers the smallest pending message until none is pending.
pub fn deliver_all(record: &mut Owned) {
    while let Some(message) = smallest_pending(record.as_bytes()) {
        assert_eq!(record.is_pending(message), Ok(true));
        record.deliver(message).unwrap();
    }
    assert_eq!(record.counts().unwrap().pending, 0);
}

/// Where the pending bits begin, by docs/RECORD.md.
pub const PENDING: usize = 1793;

/// The first set bit of the pending bits.
pub fn smallest_pending(bytes: &[u8]) -> Option<Message> {
    let (place, byte) = (0..).zip(&bytes[PENDING..]).find(|&(_, &byte)| byte != 0)?;
    Some(message_at(8 * place + byte.trailing_zeros()))
}

/// The message at a place of the ascending order.
pub fn message_at(mut place: u32) -> Message {
    const SEATS: u32 = 64;
    // How many values `about`, `level` and `side` have, by kind from 1.
    const VALUES: [(u32, u32, u32); 7] = [
        (SEATS, 9, 1),
        (SEATS, 8, 1),
        (2, 8, 2),
        (1, 9, 2),
        (SEATS, 9, 1),
        (SEATS, 9, 1),
        (1, 9, 2),
    ];
    for (kind, (abouts, levels, sides)) in (1..).zip(VALUES) {
        let places = SEATS * abouts * levels * sides;
        if place < places {
            let mut take = |values: u32| {
                let value = place % values;
                place /= values;
                value as u8
            };
            let (side, level, about, to) = (take(sides), take(levels), take(abouts), take(SEATS));
            return Message::new(kind, to, about, level, side);
        }
        place -= places;
    }
    unreachable!("there are no more pending bits")
}

/// A call on lent bytes that is refused with this number and changes none.
pub fn refused(
    bytes: &[u8],
    number: u8,
    call: impl FnOnce(&mut Record<&mut [u8]>) -> Result<(), Refusal>,
) {
    let mut lent = bytes.to_vec();
    let answer = call(&mut Record::over(&mut lent[..]));
    assert_eq!(answer.map_err(Refusal::number), Err(number));
    assert!(lent == bytes, "a call refused with {number} changed a byte");
}
