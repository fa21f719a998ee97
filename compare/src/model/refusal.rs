//! The refusals, numbered as in document 01's table and document 02.

#[derive(Clone, Copy, PartialEq, Eq, Debug)]
pub enum Refusal {
    WrongSize = 1,
    Unsound = 2,
    NoSuchSeat = 3,
    SeatTaken = 4,
    NumberInUse = 5,
    NoContact = 6,
    InClearing = 7,
    EmptySeat = 8,
    AlreadyLeaving = 9,
    NoSuchMessage = 10,
    MessagesLeft = 11,
    NoSuchLevel = 12,
    Unsettled = 13,
    NotReserved = 14,
    SameLot = 15,
}

impl Refusal {
    /// The order in which the first row that applies is given.
    pub const ORDER: [Refusal; 15] = [
        Refusal::WrongSize,
        Refusal::Unsound,
        Refusal::NoSuchSeat,
        Refusal::NoSuchLevel,
        Refusal::InClearing,
        Refusal::SeatTaken,
        Refusal::NotReserved,
        Refusal::EmptySeat,
        Refusal::Unsettled,
        Refusal::SameLot,
        Refusal::NumberInUse,
        Refusal::NoContact,
        Refusal::AlreadyLeaving,
        Refusal::NoSuchMessage,
        Refusal::MessagesLeft,
    ];

    pub fn number(self) -> u8 {
        self as u8
    }
}
