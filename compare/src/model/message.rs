//! A message: five numbers, ordered as they stand.

use crate::graph::Side;

/// The kinds 1 to 7 of document 01.
#[derive(Clone, Copy, PartialEq, Eq, Debug)]
pub enum Kind {
    Meet = 1,
    Probe = 2,
    Pull = 3,
    Going = 4,
    Seek = 5,
    Found = 6,
    None = 7,
}

#[derive(Clone, Copy, PartialEq, Eq, PartialOrd, Ord, Hash, Debug)]
pub struct Message {
    pub kind: u8,
    pub to: u8,
    pub about: u8,
    pub level: u8,
    pub side: u8,
}

impl Message {
    pub fn new(kind: Kind, to: u8, about: u8, level: u8, side: Side) -> Message {
        Message {
            kind: kind as u8,
            to,
            about,
            level,
            side: side.number(),
        }
    }

    /// This message with one of its five numbers, counted from 0, taken from
    /// another.
    pub fn with_number_of(mut self, other: Message, which: usize) -> Message {
        match which {
            0 => self.kind = other.kind,
            1 => self.to = other.to,
            2 => self.about = other.about,
            3 => self.level = other.level,
            _ => self.side = other.side,
        }
        self
    }

    pub fn meet(to: u8, about: u8, level: u8) -> Message {
        Message::new(Kind::Meet, to, about, level, Side::Left)
    }

    pub fn probe(to: u8, about: u8, level: u8) -> Message {
        Message::new(Kind::Probe, to, about, level, Side::Left)
    }

    /// `side` is the way it travels.
    pub fn pull(to: u8, wanted_bit: u8, level: u8, side: Side) -> Message {
        Message::new(Kind::Pull, to, wanted_bit, level, side)
    }

    /// `side` is where the receiver has the leaver.
    pub fn going(to: u8, level: u8, side: Side) -> Message {
        Message::new(Kind::Going, to, 0, level, side)
    }

    pub fn seek(to: u8, about: u8, level: u8) -> Message {
        Message::new(Kind::Seek, to, about, level, Side::Left)
    }

    pub fn found(to: u8, about: u8, level: u8) -> Message {
        Message::new(Kind::Found, to, about, level, Side::Left)
    }

    pub fn none(to: u8, level: u8, side: Side) -> Message {
        Message::new(Kind::None, to, 0, level, side)
    }

    /// The kind, or none for a number outside 1 to 7.
    pub fn kind(self) -> Option<Kind> {
        let kinds = [
            Kind::Meet,
            Kind::Probe,
            Kind::Pull,
            Kind::Going,
            Kind::Seek,
            Kind::Found,
            Kind::None,
        ];
        let index = usize::from(self.kind).checked_sub(1)?;
        kinds.get(index).copied()
    }
}
