//! Calls with arguments that mostly mean something in a given record.

mod crash;
mod joining;
mod merge;

use super::{entry_at, is_reserved, is_seated, state};
use crate::call::Call;
use crate::graph::SEATS;
use crate::lent::place::{NUMBER_AT, PENDING, PENDING_AT, PLACES, VECTOR_AT};
use crate::lent::{message_at, SIZE};
use crate::model::Message;
use crate::random::Random;
use crate::script::Pools;

/// Which calls are made most.
#[derive(Clone, Copy, PartialEq, Eq, Debug)]
pub enum Style {
    /// Joins and leaves cross deliveries.
    Busy,
    /// Deliveries, so that few messages are left.
    Draining,
    /// Turns and leaves, deliveries enough to go on.
    Turning,
    /// Searches, checks and readings.
    Asking,
    /// Searches, mostly of records at rest, with few changes between them.
    Scanning,
    /// The same while lots leave and turns are rare.
    Closing,
    /// Reservations, confirmed or given back, while all else goes on.
    Reserving,
    /// Lots crash, mostly in records at rest, while others join and leave.
    Crashing,
    /// Components are merged and cut, and not all is delivered between.
    Merging,
}

#[derive(Clone, Copy)]
enum Name {
    Open,
    Join,
    Reserve,
    Confirm,
    GiveBack,
    Leave,
    Deliver,
    Bundle,
    /// A bundle of all.
    Settle,
    Turn,
    Crash,
    Merge,
    Find,
    Check,
    Read,
}

impl Style {
    pub const ALL: [Style; 9] = [
        Style::Busy,
        Style::Draining,
        Style::Turning,
        Style::Asking,
        Style::Scanning,
        Style::Closing,
        Style::Reserving,
        Style::Crashing,
        Style::Merging,
    ];

    fn weights(self) -> [(Name, usize); NAMES.len()] {
        let weights = match self {
            Style::Busy => [1, 120, 15, 12, 4, 40, 150, 15, 0, 10, 6, 8, 20, 10, 30],
            Style::Draining => [0, 4, 2, 2, 1, 2, 400, 20, 0, 10, 8, 4, 10, 10, 20],
            Style::Turning => [1, 20, 6, 6, 4, 40, 200, 40, 0, 90, 16, 4, 10, 20, 20],
            Style::Asking => [1, 10, 4, 2, 2, 5, 50, 5, 0, 10, 10, 5, 100, 80, 150],
            Style::Scanning => [0, 20, 4, 3, 2, 1, 5, 0, 60, 20, 10, 2, 400, 10, 10],
            Style::Closing => [0, 20, 4, 3, 2, 60, 5, 0, 60, 10, 8, 2, 400, 10, 10],
            Style::Reserving => [2, 20, 90, 60, 40, 20, 60, 10, 20, 30, 6, 4, 20, 10, 30],
            Style::Crashing => [0, 160, 10, 8, 3, 15, 30, 10, 90, 15, 30, 2, 50, 20, 20],
            Style::Merging => [0, 60, 12, 12, 6, 12, 40, 10, 30, 8, 80, 110, 20, 15, 10],
        };
        std::array::from_fn(|index| (NAMES[index], weights[index]))
    }
}

/// In the order of the weights.
const NAMES: [Name; 15] = [
    Name::Open,
    Name::Join,
    Name::Reserve,
    Name::Confirm,
    Name::GiveBack,
    Name::Leave,
    Name::Deliver,
    Name::Bundle,
    Name::Settle,
    Name::Turn,
    Name::Crash,
    Name::Merge,
    Name::Find,
    Name::Check,
    Name::Read,
];

/// A call for a record of the right size, sound or not.
pub fn call(bytes: &[u8], style: Style, pools: &Pools, random: &mut Random) -> Call {
    assert_eq!(bytes.len(), SIZE);
    let mut chooser = Chooser {
        bytes,
        pools,
        random,
    };
    match chooser.random.pick_weighted(&style.weights()) {
        Name::Open => Call::Open,
        Name::Join => chooser.join(),
        Name::Reserve => chooser.reserve(),
        Name::Confirm => chooser.confirm(),
        Name::GiveBack => Call::GiveBack {
            seat: chooser.mostly_reserved(),
        },
        Name::Leave => Call::Leave {
            seat: chooser.seat(),
        },
        Name::Deliver => Call::Deliver(chooser.message()),
        Name::Bundle => Call::Bundle {
            limit: chooser.limit(),
        },
        Name::Settle => Call::Bundle { limit: u16::MAX },
        Name::Turn => Call::Turn,
        Name::Crash => Call::Crash {
            seats: chooser.crashed(),
        },
        Name::Merge => chooser.merge(),
        Name::Find => Call::Find {
            seat: chooser.seat(),
            number: chooser.number(),
        },
        Name::Check => Call::Check,
        Name::Read => chooser.reading(),
    }
}

struct Chooser<'a> {
    bytes: &'a [u8],
    pools: &'a Pools,
    random: &'a mut Random,
}

impl Chooser<'_> {
    fn reading(&mut self) -> Call {
        let seat = self.seat();
        match self.random.below(6) {
            0 => Call::ReadLot { seat },
            1 => Call::ReadLink {
                seat,
                level: self.level(),
                side: self.side(),
            },
            2 => Call::ReadMessage(self.message()),
            3 => Call::ReadCounts,
            4 => Call::NextMessage(self.from()),
            _ => Call::Validate,
        }
    }

    /// Mostly the seat of a seated lot, sometimes of a reserved one, any or an
    /// edge.
    fn seat(&mut self) -> u8 {
        let seat = match self.random.below(12) {
            0 => return self.random.pick(&EDGES),
            1 => return self.random.below(SEATS) as u8,
            2 | 3 => self.some_seat(|state| state != 0),
            _ => self.some_seat(is_seated),
        };
        seat.unwrap_or(self.random.pick(&self.pools.seats))
    }

    /// A seat of the pool, or after it, whose state is wanted.
    fn some_seat(&mut self, wanted: impl Fn(u8) -> bool) -> Option<u8> {
        let bytes = self.bytes;
        self.some_seat_that(|seat| wanted(state(bytes, seat.into())))
    }

    fn some_seat_that(&mut self, is_wanted: impl Fn(u8) -> bool) -> Option<u8> {
        let start = usize::from(self.random.pick(&self.pools.seats));
        let mut seats = (start..start + SEATS).map(|seat| (seat % SEATS) as u8);
        seats.find(|&seat| is_wanted(seat))
    }

    /// The number of a lot, one of the pool, a neighbour of these, or an edge.
    fn number(&mut self) -> u64 {
        let number = match self.some_seat(|state| state != 0) {
            Some(seat) if self.random.one_in(2) => {
                let at = entry_at(seat.into());
                let bytes = &self.bytes[at + NUMBER_AT..at + VECTOR_AT];
                bytes.iter().fold(0, |n, &byte| n << 8 | u64::from(byte))
            }
            _ => self.random.pick(&self.pools.numbers),
        };
        match self.random.below(16) {
            0..4 => number.wrapping_add(1),
            4..8 => number.wrapping_sub(1),
            8 => 0,
            9 => u64::MAX,
            10 => self.random.next(),
            _ => number,
        }
    }

    /// Mostly a pending message if there is one.
    fn message(&mut self) -> Message {
        let pending = self.pending();
        match (self.random.below(16), pending) {
            (0, _) => self.any_message(),
            (1, Some(message)) => self.altered(message),
            (2.., Some(message)) => message,
            (1..8, None) => message_at(self.random.below(PLACES)),
            (_, None) => self.any_message(),
        }
    }

    /// Where to go on listing what is pending: the start, mostly at a message or
    /// the numbers after one, sometimes anywhere.
    fn from(&mut self) -> Message {
        let message = self.message();
        match self.random.below(6) {
            0 => message.with_number_of(self.any_message(), 0),
            1 => self.any_message(),
            2 | 3 => Message {
                side: message.side.saturating_add(1),
                ..message
            },
            4 => Message {
                kind: 0,
                to: 0,
                about: 0,
                level: 0,
                side: 0,
            },
            _ => message,
        }
    }

    /// The first pending message from some place on, round the end.
    fn pending(&mut self) -> Option<Message> {
        let pending = &self.bytes[PENDING_AT..];
        let start = self.random.below(PENDING) / 8 * 8;
        let found = first_set(&pending[start..]).map(|place| start * 8 + place);
        let found = found.or_else(|| first_set(&pending[..start]));
        found.map(message_at)
    }

    fn any_message(&mut self) -> Message {
        let odd = [0, 8, 9, 128, 255];
        Message {
            kind: match self.random.one_in(4) {
                true => self.random.pick(&odd),
                false => 1 + self.random.below(7) as u8,
            },
            to: self.seat(),
            about: match self.random.one_in(3) {
                true => self.random.below(3) as u8,
                false => self.seat(),
            },
            level: self.level(),
            side: self.side(),
        }
    }

    fn altered(&mut self, message: Message) -> Message {
        let any = self.any_message();
        message.with_number_of(any, self.random.below(5))
    }

    /// Mostly of a bundle that leaves messages pending, sometimes of one that
    /// leaves none.
    fn limit(&mut self) -> u16 {
        match self.random.below(16) {
            few @ 0..6 => few as u16 / 2,
            6..12 => 3 + self.random.below(18) as u16,
            12..14 => self.random.below(500) as u16,
            14 => self.random.next() as u16,
            _ => u16::MAX,
        }
    }

    fn level(&mut self) -> u8 {
        match self.random.one_in(6) {
            true => self.random.pick(&[7, 8, 9, 10, 128, 255]),
            false => self.random.below(9) as u8,
        }
    }

    fn side(&mut self) -> u8 {
        self.random.pick(&[0, 0, 0, 0, 1, 1, 1, 1, 2, 255])
    }
}

/// The first and the last seats, and numbers that are none.
const EDGES: [u8; 10] = [0, 62, 63, 64, 65, 127, 128, 191, 254, 255];

/// The first set bit, bytes taken eight at a time.
fn first_set(bytes: &[u8]) -> Option<usize> {
    let (words, _) = bytes.as_chunks();
    let index = words
        .iter()
        .position(|&word| u64::from_le_bytes(word) != 0)?;
    let bit = u64::from_le_bytes(words[index]).trailing_zeros();
    Some(index * 64 + bit as usize)
}
