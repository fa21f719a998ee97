//! Names for the numbers of document 01: kinds, phases, states and sides.

use core::fmt;

/// The kind of a message; the table at [`Message`](crate::Message) says what each does.
///
/// A message holds the number, which may be any; here are those that name a kind.
///
/// ```
/// use lots_record::{Kind, Record};
///
/// let mut record = Record::new();
/// record.join(0, 100, 0, None)?;
/// record.join(1, 200, 128, Some(0))?;
/// let message = record.pending_messages()?.next().unwrap();
/// assert_eq!(Kind::from_number(message.kind), Some(Kind::Meet));
/// assert_eq!(Kind::Meet.to_string(), "MEET");
/// # Ok::<(), lots_record::Refusal>(())
/// ```
#[derive(Clone, Copy, PartialEq, Eq, PartialOrd, Ord, Hash, Debug)]
#[repr(u8)]
pub enum Kind {
    /// 1: a lot learns of another.
    Meet = 1,
    /// 2: looks for a lot to meet one level up.
    Probe = 2,
    /// 3: looks for a lot with the other bit.
    Pull = 3,
    /// 4: a neighbour leaves.
    Going = 4,
    /// 5: looks for the next staying lot.
    Seek = 5,
    /// 6: the next staying lot is found.
    Found = 6,
    /// 7: there is no staying lot on that side.
    None = 7,
}

impl Kind {
    /// Document 01's number, 1 to 7.
    ///
    /// ```
    /// use lots_record::{Kind, Message};
    ///
    /// let meet = Message::new(Kind::Meet.number(), 0, 1, 0, 0);
    /// assert_eq!(meet.kind, 1);
    /// ```
    pub const fn number(self) -> u8 {
        self as u8
    }

    /// The kind of that number, or none outside 1 to 7.
    ///
    /// ```
    /// use lots_record::Kind;
    ///
    /// assert_eq!(Kind::from_number(7), Some(Kind::None));
    /// assert_eq!(Kind::from_number(0), None);
    /// assert_eq!(Kind::from_number(8), None);
    /// ```
    pub const fn from_number(number: u8) -> Option<Kind> {
        Some(match number {
            1 => Kind::Meet,
            2 => Kind::Probe,
            3 => Kind::Pull,
            4 => Kind::Going,
            5 => Kind::Seek,
            6 => Kind::Found,
            7 => Kind::None,
            _ => return None,
        })
    }
}

/// Document 01's word: MEET, PROBE, PULL, GOING, SEEK, FOUND or NONE.
impl fmt::Display for Kind {
    fn fmt(&self, f: &mut fmt::Formatter<'_>) -> fmt::Result {
        f.pad(match self {
            Kind::Meet => "MEET",
            Kind::Probe => "PROBE",
            Kind::Pull => "PULL",
            Kind::Going => "GOING",
            Kind::Seek => "SEEK",
            Kind::Found => "FOUND",
            Kind::None => "NONE",
        })
    }
}

/// The phase of a record.
///
/// ```
/// use lots_record::{Phase, Record};
///
/// let phase = Record::new().counts()?.phase;
/// assert_eq!(phase, Phase::Open);
/// assert_eq!(phase.to_string(), "open");
/// # Ok::<(), lots_record::Refusal>(())
/// ```
#[derive(Clone, Copy, PartialEq, Eq, Hash, Debug)]
#[repr(u8)]
pub enum Phase {
    /// 0: lots may be reserved, join and leave.
    Open = 0,
    /// 1: the leaving lots are being taken out of the lists.
    Clearing = 1,
}

impl Phase {
    /// Document 01's number, 0 or 1.
    ///
    /// ```
    /// assert_eq!(lots_record::Phase::Clearing.number(), 1);
    /// ```
    pub const fn number(self) -> u8 {
        self as u8
    }

    /// The phase of that number, or none above 1.
    ///
    /// ```
    /// use lots_record::Phase;
    ///
    /// assert_eq!(Phase::from_number(0), Some(Phase::Open));
    /// assert_eq!(Phase::from_number(2), None);
    /// ```
    pub const fn from_number(number: u8) -> Option<Phase> {
        Some(match number {
            0 => Phase::Open,
            1 => Phase::Clearing,
            _ => return None,
        })
    }
}

/// Its word: open or clearing.
impl fmt::Display for Phase {
    fn fmt(&self, f: &mut fmt::Formatter<'_>) -> fmt::Result {
        f.pad(match self {
            Phase::Open => "open",
            Phase::Clearing => "clearing",
        })
    }
}

/// The state of a lot. A free seat, document 01's state 0, has no lot to read.
///
/// ```
/// use lots_record::{Record, State};
///
/// let mut record = Record::new();
/// record.reserve(0, 100, 0)?;
/// let state = record.lot(0)?.state;
/// assert_eq!(state, State::Reserved);
/// assert_eq!(state.to_string(), "reserved");
/// # Ok::<(), lots_record::Refusal>(())
/// ```
#[derive(Clone, Copy, PartialEq, Eq, Hash, Debug)]
#[repr(u8)]
pub enum State {
    /// 1: it is seated and stays.
    Staying = 1,
    /// 2: it is seated, marked as leaving, and goes on taking part.
    Leaving = 2,
    /// 3: it is not seated. Its seat and its number are kept for it, until it is
    /// [confirmed](crate::Record::confirm) or [given back](crate::Record::give_back).
    Reserved = 3,
}

impl State {
    /// The number of documents 01 and 02, 1 to 3.
    ///
    /// ```
    /// assert_eq!(lots_record::State::Leaving.number(), 2);
    /// ```
    pub const fn number(self) -> u8 {
        self as u8
    }

    /// The state of that number, or none outside 1 to 3.
    ///
    /// ```
    /// use lots_record::State;
    ///
    /// assert_eq!(State::from_number(1), Some(State::Staying));
    /// assert_eq!(State::from_number(0), None);
    /// assert_eq!(State::from_number(4), None);
    /// ```
    pub const fn from_number(number: u8) -> Option<State> {
        Some(match number {
            1 => State::Staying,
            2 => State::Leaving,
            3 => State::Reserved,
            _ => return None,
        })
    }
}

/// Its word: staying, leaving or reserved.
impl fmt::Display for State {
    fn fmt(&self, f: &mut fmt::Formatter<'_>) -> fmt::Result {
        f.pad(match self {
            State::Staying => "staying",
            State::Leaving => "leaving",
            State::Reserved => "reserved",
        })
    }
}

/// A side of a lot.
///
/// ```
/// use lots_record::{Record, Side};
///
/// let mut record = Record::new();
/// record.join(0, 100, 0, None)?;
/// record.join(1, 200, 0, Some(0))?;
/// record.deliver_all()?;
/// assert_eq!(record.link(0, 0, Side::Left)?, None);
/// assert_eq!(record.link(0, 0, Side::Right)?, Some(1));
/// assert_eq!(Side::Right.to_string(), "right");
/// # Ok::<(), lots_record::Refusal>(())
/// ```
#[derive(Clone, Copy, PartialEq, Eq, PartialOrd, Ord, Hash, Debug)]
#[repr(u8)]
pub enum Side {
    /// 0: the side of smaller numbers.
    Left = 0,
    /// 1: the side of larger numbers.
    Right = 1,
}

impl Side {
    /// Document 01's number, 0 or 1.
    ///
    /// ```
    /// assert_eq!(lots_record::Side::Right.number(), 1);
    /// ```
    pub const fn number(self) -> u8 {
        self as u8
    }

    /// The side of that number, or none above 1.
    ///
    /// ```
    /// use lots_record::Side;
    ///
    /// assert_eq!(Side::from_number(0), Some(Side::Left));
    /// assert_eq!(Side::from_number(2), None);
    /// ```
    pub const fn from_number(number: u8) -> Option<Side> {
        Some(match number {
            0 => Side::Left,
            1 => Side::Right,
            _ => return None,
        })
    }
}

/// Its word: left or right.
impl fmt::Display for Side {
    fn fmt(&self, f: &mut fmt::Formatter<'_>) -> fmt::Result {
        f.pad(match self {
            Side::Left => "left",
            Side::Right => "right",
        })
    }
}
