//! The refusals of documents 01 and 02.

use core::error::Error;
use core::fmt;

/// Why a call was refused, by the number and term of the table.
///
/// A refused call changes no byte of the record. Of several refusals that
/// apply, the first in this order is given: 1, 2, 3, 12, 7, 4, 14, 8, 13, 15, 5,
/// 6, 9, 10, 11.
///
/// ```
/// use lots_record::{Record, Refusal};
///
/// let refusal = Record::new().leave(64).unwrap_err();
/// assert_eq!(refusal, Refusal::NoSuchSeat);
/// assert_eq!(refusal.number(), 3);
/// assert_eq!(refusal.to_string(), "no such seat");
/// ```
#[derive(Clone, Copy, PartialEq, Eq, Hash, Debug)]
#[repr(u8)]
pub enum Refusal {
    /// 1: the memory is not [`SIZE`](crate::SIZE) bytes long.
    WrongSize = 1,
    /// 2: the bytes are no sound record.
    Unsound = 2,
    /// 3: a seat above 63.
    NoSuchSeat = 3,
    /// 4: the seat to take is not free: a lot is seated or reserved there.
    SeatTaken = 4,
    /// 5: a seated or reserved lot has the number.
    NumberInUse = 5,
    /// 6: no lot is seated on the contact's seat, or there is no contact while lots
    /// are seated.
    NoContact = 6,
    /// 7: no lot joins, is reserved, is confirmed, leaves, crashes or is merged in phase
    /// clearing.
    InClearing = 7,
    /// 8: no lot is seated there; to read a lot, none is reserved there either.
    EmptySeat = 8,
    /// 9: the lot is leaving.
    AlreadyLeaving = 9,
    /// 10: these five numbers are no pending message.
    NoSuchMessage = 10,
    /// 11: no turn and no crash while messages are pending.
    MessagesLeft = 11,
    /// 12: a level above 8 or a side above 1.
    NoSuchLevel = 12,
    /// 13: no scan while messages are pending, in phase clearing, or if the check
    /// says no.
    Unsettled = 13,
    /// 14: no lot is reserved on the seat to confirm or to give back.
    NotReserved = 14,
    /// 15: the lot to merge with another is that other.
    SameLot = 15,
}

/// The table, ascending by number from 1.
const TABLE: [(Refusal, &str); 15] = [
    (Refusal::WrongSize, "wrong size"),
    (Refusal::Unsound, "unsound"),
    (Refusal::NoSuchSeat, "no such seat"),
    (Refusal::SeatTaken, "seat taken"),
    (Refusal::NumberInUse, "number in use"),
    (Refusal::NoContact, "no contact"),
    (Refusal::InClearing, "clearing"),
    (Refusal::EmptySeat, "empty seat"),
    (Refusal::AlreadyLeaving, "already leaving"),
    (Refusal::NoSuchMessage, "no such message"),
    (Refusal::MessagesLeft, "messages left"),
    (Refusal::NoSuchLevel, "no such level"),
    (Refusal::Unsettled, "unsettled"),
    (Refusal::NotReserved, "not reserved"),
    (Refusal::SameLot, "same lot"),
];

impl Refusal {
    /// The number of the table, 1 to 15.
    ///
    /// ```
    /// use lots_record::Refusal;
    ///
    /// assert_eq!(Refusal::WrongSize.number(), 1);
    /// assert_eq!(Refusal::SameLot.number(), 15);
    /// ```
    pub fn number(self) -> u8 {
        self as u8
    }

    /// The refusal of that number, or none outside 1 to 15.
    ///
    /// ```
    /// use lots_record::Refusal;
    ///
    /// assert_eq!(Refusal::from_number(5), Some(Refusal::NumberInUse));
    /// assert_eq!(Refusal::from_number(0), None);
    /// assert_eq!(Refusal::from_number(16), None);
    /// ```
    pub fn from_number(number: u8) -> Option<Refusal> {
        let row = usize::from(number).checked_sub(1)?;
        TABLE.get(row).map(|&(refusal, _)| refusal)
    }
}

impl fmt::Display for Refusal {
    fn fmt(&self, f: &mut fmt::Formatter<'_>) -> fmt::Result {
        let (_, term) = TABLE[usize::from(self.number()) - 1];
        f.pad(term)
    }
}

impl Error for Refusal {}

#[cfg(test)]
mod tests {
    use super::*;

    #[test]
    fn the_table_is_in_the_order_of_its_numbers() {
        for (number, (refusal, _)) in (1..).zip(TABLE) {
            assert_eq!(refusal.number(), number);
            assert_eq!(Refusal::from_number(number), Some(refusal));
        }
    }
}
