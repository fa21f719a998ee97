//! A call of documents 01 and 02 with its arguments, and its answer as plain
//! numbers, so that whatever answers calls can be compared.

use crate::lent::{self, CountsRead, LotRead};
use crate::model::{Message, Model, Refusal};
use crate::search::Found;

#[derive(Clone, Copy, PartialEq, Eq, Debug)]
pub enum Call {
    Open,
    Join {
        seat: u8,
        number: u64,
        vector: u8,
        contact: u8,
    },
    Reserve {
        seat: u8,
        number: u64,
        vector: u8,
    },
    Confirm {
        seat: u8,
        contact: u8,
    },
    GiveBack {
        seat: u8,
    },
    Leave {
        seat: u8,
    },
    Deliver(Message),
    Bundle {
        limit: u16,
    },
    Turn,
    /// Bit 0, the lowest, is seat 0.
    Crash {
        seats: u64,
    },
    Merge {
        first: u8,
        second: u8,
    },
    Find {
        seat: u8,
        number: u64,
    },
    Check,
    ReadLot {
        seat: u8,
    },
    ReadLink {
        seat: u8,
        level: u8,
        side: u8,
    },
    ReadMessage(Message),
    ReadCounts,
    Validate,
    NextMessage(Message),
}

/// The refusal's number, 0 if the call is accepted, and the values in the order
/// in which document 01 names them; those of a refused call are 0. A holder and
/// a link are a seat, or 255 for none; the next message is five numbers, or 0; a
/// bundle has its count.
#[derive(Clone, Copy, PartialEq, Eq, Debug)]
pub struct Answer {
    pub refusal: u8,
    pub values: Values,
}

/// As many as a message has numbers, the most of any answer.
pub type Values = [u64; 5];

pub const NO_VALUES: Values = [0; 5];

/// A seat that is not there.
const NO_SEAT: u8 = 255;

/// The names of the calls, in the order of [`Call::index`].
pub const NAMES: [&str; 19] = [
    "open",
    "join",
    "reserve",
    "confirm",
    "give_back",
    "leave",
    "deliver",
    "bundle",
    "turn",
    "crash",
    "merge",
    "find",
    "check",
    "read_lot",
    "read_link",
    "read_message",
    "read_counts",
    "validate",
    "next_message",
];

/// The rows of the table that speak of each call, in the table's order.
pub const REFUSALS: [&[u8]; NAMES.len()] = [
    &[1],
    &[1, 2, 3, 7, 4, 5, 6],
    &[1, 2, 3, 7, 4, 5],
    &[1, 2, 3, 7, 14, 6],
    &[1, 2, 3, 14],
    &[1, 2, 3, 7, 8, 9],
    &[1, 2, 10],
    &[1, 2],
    &[1, 2, 11],
    &[1, 2, 7, 8, 11],
    &[1, 2, 3, 7, 8, 15],
    &[1, 2, 3, 8, 13],
    &[1, 2],
    &[1, 2, 3, 8],
    &[1, 2, 3, 12, 8],
    &[1, 2],
    &[1, 2],
    &[1, 2],
    &[1, 2],
];

impl Call {
    pub fn index(self) -> usize {
        match self {
            Call::Open => 0,
            Call::Join { .. } => 1,
            Call::Reserve { .. } => 2,
            Call::Confirm { .. } => 3,
            Call::GiveBack { .. } => 4,
            Call::Leave { .. } => 5,
            Call::Deliver(_) => 6,
            Call::Bundle { .. } => 7,
            Call::Turn => 8,
            Call::Crash { .. } => 9,
            Call::Merge { .. } => 10,
            Call::Find { .. } => 11,
            Call::Check => 12,
            Call::ReadLot { .. } => 13,
            Call::ReadLink { .. } => 14,
            Call::ReadMessage(_) => 15,
            Call::ReadCounts => 16,
            Call::Validate => 17,
            Call::NextMessage(_) => 18,
        }
    }

    pub fn changes_bytes(self) -> bool {
        let (first, second) = (0, 0);
        self.index() <= Call::Merge { first, second }.index()
    }

    /// Makes the call on lent bytes.
    pub fn on_bytes(self, bytes: &mut [u8]) -> Answer {
        match self {
            Call::Open => done(lent::open(bytes)),
            Call::Join {
                seat,
                number,
                vector,
                contact,
            } => done(lent::join(bytes, seat, number, vector, contact)),
            Call::Reserve {
                seat,
                number,
                vector,
            } => done(lent::reserve(bytes, seat, number, vector)),
            Call::Confirm { seat, contact } => done(lent::confirm(bytes, seat, contact)),
            Call::GiveBack { seat } => done(lent::give_back(bytes, seat)),
            Call::Leave { seat } => done(lent::leave(bytes, seat)),
            Call::Deliver(message) => done(lent::deliver(bytes, message)),
            Call::Bundle { limit } => one(lent::bundle(bytes, limit)),
            Call::Turn => done(lent::turn(bytes)),
            Call::Crash { seats } => done(lent::crash(bytes, seats)),
            Call::Merge { first, second } => done(lent::merge(bytes, first, second)),
            Call::Find { seat, number } => found(lent::find(bytes, seat, number)),
            Call::Check => one(lent::check(bytes)),
            Call::ReadLot { seat } => lot(lent::read_lot(bytes, seat)),
            Call::ReadLink { seat, level, side } => one(lent::read_link(bytes, seat, level, side)),
            Call::ReadMessage(message) => one(lent::read_message(bytes, message)),
            Call::ReadCounts => counts(lent::read_counts(bytes)),
            Call::Validate => done(lent::validate(bytes)),
            Call::NextMessage(from) => next(lent::next_message(bytes, from)),
        }
    }

    /// Makes the call on a model: a sound record of the right size.
    pub fn on_model(self, model: &mut Model) -> Answer {
        #[cfg(test)]
        if let Some(answer) = model.wrong_call(self) {
            return answer;
        }
        match self {
            Call::Open => {
                *model = Model::open();
                done(Ok(()))
            }
            Call::Join {
                seat,
                number,
                vector,
                contact,
            } => done(model.join(seat, number, vector, contact)),
            Call::Reserve {
                seat,
                number,
                vector,
            } => done(model.reserve(seat, number, vector)),
            Call::Confirm { seat, contact } => done(model.confirm(seat, contact)),
            Call::GiveBack { seat } => done(model.give_back(seat)),
            Call::Leave { seat } => done(model.leave(seat)),
            Call::Deliver(message) => done(model.deliver(message)),
            Call::Bundle { limit } => one(Ok(model.bundle(limit))),
            Call::Turn => done(model.turn()),
            Call::Crash { seats } => done(model.crash(seats)),
            Call::Merge { first, second } => done(model.merge(first, second)),
            Call::Find { seat, number } => found(model.find(seat, number)),
            Call::Check => one(Ok(model.check())),
            Call::ReadLot { seat } => lot(model.lot(seat).map(|lot| LotRead {
                state: lot.state as u8,
                number: lot.number,
                vector: lot.vector,
            })),
            Call::ReadLink { seat, level, side } => {
                let link = model.link(seat, level, side);
                one(link.map(|link| link.unwrap_or(NO_SEAT)))
            }
            Call::ReadMessage(message) => one(Ok(model.is_pending(message))),
            Call::ReadCounts => {
                let read = model.counts();
                counts(Ok(CountsRead {
                    lots: read.lots as u8,
                    phase: read.phase,
                    pending: read.pending as u32,
                }))
            }
            Call::Validate => done(Ok(())),
            Call::NextMessage(from) => next(Ok(model.next_message(from))),
        }
    }
}

impl Answer {
    pub fn accepted(values: Values) -> Answer {
        let refusal = 0;
        Answer { refusal, values }
    }

    pub fn refused(refusal: u8) -> Answer {
        let values = NO_VALUES;
        Answer { refusal, values }
    }

    pub fn found(found: Found) -> Answer {
        let holder = found.holder.unwrap_or(NO_SEAT);
        Answer::accepted([holder.into(), found.hops.into(), 0, 0, 0])
    }

    fn of<T>(result: Result<T, Refusal>, values: impl Fn(T) -> Values) -> Answer {
        match result {
            Ok(answer) => Answer::accepted(values(answer)),
            Err(refusal) => Answer::refused(refusal.number()),
        }
    }
}

fn done(result: Result<(), Refusal>) -> Answer {
    Answer::of(result, |()| NO_VALUES)
}

fn one<T: Into<u64>>(result: Result<T, Refusal>) -> Answer {
    Answer::of(result, |value| [value.into(), 0, 0, 0, 0])
}

fn found(result: Result<Found, Refusal>) -> Answer {
    Answer::of(result, |found| Answer::found(found).values)
}

fn lot(result: Result<LotRead, Refusal>) -> Answer {
    Answer::of(result, |lot| {
        [lot.state.into(), lot.number, lot.vector.into(), 0, 0]
    })
}

fn counts(result: Result<CountsRead, Refusal>) -> Answer {
    Answer::of(result, |counts| {
        let CountsRead {
            lots,
            phase,
            pending,
        } = counts;
        [lots.into(), phase as u64, pending.into(), 0, 0]
    })
}

fn next(result: Result<Option<Message>, Refusal>) -> Answer {
    Answer::of(result, |next| {
        next.map_or(NO_VALUES, |m| {
            [m.kind, m.to, m.about, m.level, m.side].map(u64::from)
        })
    })
}
