//! What is read from a record.

use crate::names::{Kind, Phase, State};
use crate::NO_SEAT;
use core::fmt;

/// A lot, seated or reserved.
#[derive(Clone, Copy, PartialEq, Eq, Hash, Debug)]
pub struct Lot {
    /// Whether it stays, leaves or is reserved.
    pub state: State,
    /// Its number; any value is allowed.
    pub number: u64,
    /// Its membership vector; bit 0 is the highest.
    pub vector: u8,
}

/// A record in three numbers.
#[derive(Clone, Copy, PartialEq, Eq, Hash, Debug)]
pub struct Counts {
    /// The seated lots, staying and leaving; reserved ones are left out.
    pub lots: u8,
    /// The phase.
    pub phase: Phase,
    /// The pending messages.
    pub pending: u32,
}

/// The answer of a search.
///
/// ```
/// use lots_record::Found;
///
/// assert_eq!(Found { holder: Some(1), hops: 2 }.to_string(), "holder 1 hops 2");
/// assert_eq!(Found { holder: None, hops: 0 }.to_string(), "none hops 0");
/// ```
#[derive(Clone, Copy, PartialEq, Eq, Hash, Debug)]
pub struct Found {
    /// The seat of the staying lot that the scanned number belongs to, if any.
    pub holder: Option<u8>,
    /// The lots that were stepped onto, leaving ones too.
    pub hops: u64,
}

/// As the program `lots` prints it.
impl fmt::Display for Found {
    fn fmt(&self, f: &mut fmt::Formatter<'_>) -> fmt::Result {
        match self.holder {
            Some(seat) => write!(f, "holder {seat} hops {}", self.hops),
            None => write!(f, "none hops {}", self.hops),
        }
    }
}

/// A message: five numbers. Any five may be given; only some are messages.
///
/// | Kind | `to` .. | `about` | `level` | `side` |
/// |---|---|---|---|---|
/// | 1 MEET | learns of a lot | that lot's seat | 0 to 8 | 0 |
/// | 2 PROBE | looks whether it meets a lot one level up | that lot's seat | 0 to 7 | 0 |
/// | 3 PULL | is asked for a bit of its vector | the wanted bit | 0 to 7 | the way it travels |
/// | 4 GOING | hears that a neighbour leaves | 0 | 0 to 8 | where the leaver sits |
/// | 5 SEEK | is asked for the next staying lot | the asking lot's seat | 0 to 8 | 0 |
/// | 6 FOUND | links to a lot | that lot's seat | 0 to 8 | 0 |
/// | 7 NONE | has no neighbour any more | 0 | 0 to 8 | where it had one |
///
/// They are ordered by the five numbers as they stand.
///
/// ```
/// use lots_record::{Kind, Message};
///
/// let meet = Message { kind: Kind::Meet.number(), to: 0, about: 1, level: 0, side: 0 };
/// let probe = Message { kind: Kind::Probe.number(), ..meet };
/// assert!(meet < probe);
/// assert_eq!(meet.to_string(), "MEET to 0 about 1 level 0 side 0");
/// ```
#[derive(Clone, Copy, PartialEq, Eq, PartialOrd, Ord, Hash, Debug)]
pub struct Message {
    /// 1 to 7, as in the table: the number of a [`Kind`].
    pub kind: u8,
    /// The seat of the lot that it is delivered to.
    pub to: u8,
    /// A seat, the wanted bit, or 0.
    pub about: u8,
    /// The level of the links that it speaks of.
    pub level: u8,
    /// 0 left, 1 right, the number of a [`Side`](crate::Side); 0 where the kind has no
    /// side.
    pub side: u8,
}

/// The kind by its word, or by its number if it names none, and the four other numbers.
impl fmt::Display for Message {
    fn fmt(&self, f: &mut fmt::Formatter<'_>) -> fmt::Result {
        let [kind, to, about, level, side] = self.numbers();
        match Kind::from_number(kind) {
            Some(kind) => write!(f, "{kind}")?,
            None => write!(f, "kind {kind}")?,
        }
        write!(f, " to {to} about {about} level {level} side {side}")
    }
}

impl Message {
    /// The message of these five numbers.
    ///
    /// ```
    /// use lots_record::{Kind, Message, Side};
    ///
    /// let pull = Message::new(Kind::Pull.number(), 5, 1, 0, Side::Right.number());
    /// assert_eq!(pull, Message { kind: 3, to: 5, about: 1, level: 0, side: 1 });
    /// ```
    pub const fn new(kind: u8, to: u8, about: u8, level: u8, side: u8) -> Message {
        Message {
            kind,
            to,
            about,
            level,
            side,
        }
    }

    /// Numbers that come before every message: where a listing begins.
    ///
    /// ```
    /// use lots_record::{Message, Record};
    ///
    /// assert_eq!(Record::new().next_message(Message::FIRST), Ok(None));
    /// ```
    pub const FIRST: Message = Message::new(0, 0, 0, 0, 0);

    /// Its five numbers.
    pub(crate) const fn numbers(self) -> [u8; 5] {
        [self.kind, self.to, self.about, self.level, self.side]
    }
}

/// A seat as the library answers it, with 255 for none.
pub(crate) fn seat_or_none(answer: u8) -> Option<u8> {
    (answer != NO_SEAT).then_some(answer)
}

/// A state as the library answers it.
pub(crate) fn state(answer: u8) -> State {
    let state = State::from_number(answer);
    state.unwrap_or_else(|| panic!("the library answered with state {answer}"))
}

/// A phase as the library answers it.
pub(crate) fn phase(answer: u8) -> Phase {
    let phase = Phase::from_number(answer);
    phase.unwrap_or_else(|| panic!("the library answered with phase {answer}"))
}

#[cfg(test)]
mod tests {
    use super::*;

    #[test]
    #[should_panic = "state 0"]
    fn a_free_seat_is_no_lot() {
        state(0);
    }

    #[test]
    #[should_panic = "phase 2"]
    fn there_are_two_phases() {
        phase(2);
    }
}
