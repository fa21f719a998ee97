//! The ways in which a reserved lot makes a record unsound, alone.

use crate::before::{FREE, RESERVED};
use crate::graph::SEATS;
use crate::lent::place::*;
use crate::lent::{self, message_at};
use crate::model::Message;

#[derive(Clone, Copy, PartialEq, Eq, PartialOrd, Ord, Debug)]
pub enum Unsound {
    /// It has a link.
    HasLink,
    /// It has the number of a seated lot, or of another reserved one.
    NumberOfSeated,
    NumberOfReserved,
    /// A link names it.
    LinkTo,
    /// A pending message is sent to it, or about it.
    MessageTo,
    MessageAbout,
    /// The state is the next above.
    StateAbove,
}

impl Unsound {
    pub const ALL: [Unsound; 7] = [
        Unsound::HasLink,
        Unsound::NumberOfSeated,
        Unsound::NumberOfReserved,
        Unsound::LinkTo,
        Unsound::MessageTo,
        Unsound::MessageAbout,
        Unsound::StateAbove,
    ];

    /// The way in which bytes of the right size are unsound, if nothing else is
    /// wrong with them.
    pub fn of_bytes(bytes: &[u8]) -> Option<Unsound> {
        let states = bytes[ENTRIES_AT..PENDING_AT].chunks(ENTRY);
        let mut states = states.map(|entry| entry[STATE_AT]);
        if !states.any(|state| state == RESERVED || state == RESERVED + 1) {
            return None;
        }
        let is_alone = |way: &Unsound| {
            let mut other = bytes.to_vec();
            way.put_right(&mut other) && lent::validate(&other).is_ok()
        };
        Unsound::ALL.into_iter().find(is_alone)
    }

    /// Takes away what is wrong in this way; whether anything is.
    pub fn put_right(self, bytes: &mut [u8]) -> bool {
        let lots = Lots::read(bytes);
        let mut changed = false;
        let mut put = |byte: &mut u8, right: u8| {
            changed |= *byte != right;
            *byte = right;
        };
        match self {
            Unsound::MessageTo => return take_messages(bytes, |m| lots.is_reserved(m.to)),
            Unsound::MessageAbout => {
                return take_messages(bytes, |m| names_about(m) && lots.is_reserved(m.about));
            }
            _ => {}
        }
        for seat in 0..SEATS as u8 {
            let (head, links) = entry_mut(bytes, seat).split_at_mut(LINKS_AT);
            let is_reserved = lots.is_reserved(seat);
            match self {
                Unsound::HasLink if is_reserved => {
                    links.iter_mut().for_each(|link| put(link, NO_LINK));
                }
                Unsound::LinkTo => {
                    let to_reserved = links.iter_mut().filter(|link| lots.is_reserved(**link));
                    to_reserved.for_each(|link| put(link, NO_LINK));
                }
                Unsound::NumberOfSeated if is_reserved && lots.has_equal(seat, false) => {
                    head.iter_mut().for_each(|byte| put(byte, 0));
                }
                Unsound::NumberOfReserved if is_reserved && lots.has_equal(seat, true) => {
                    head.iter_mut().for_each(|byte| put(byte, 0));
                }
                Unsound::StateAbove if head[STATE_AT] == RESERVED + 1 => {
                    put(&mut head[STATE_AT], RESERVED);
                }
                _ => {}
            }
        }
        changed
    }
}

/// State and number of each seat.
struct Lots([(u8, [u8; VECTOR_AT - NUMBER_AT]); SEATS]);

impl Lots {
    fn read(bytes: &[u8]) -> Lots {
        Lots(std::array::from_fn(|seat| {
            let entry = &bytes[ENTRIES_AT + ENTRY * seat..];
            let number = entry[NUMBER_AT..VECTOR_AT].try_into();
            (entry[STATE_AT], number.expect("a number has its bytes"))
        }))
    }

    fn is_reserved(&self, seat: u8) -> bool {
        usize::from(seat) < SEATS && self.0[usize::from(seat)].0 == RESERVED
    }

    /// Whether a lot on another seat, reserved or seated, has the number.
    fn has_equal(&self, seat: u8, reserved: bool) -> bool {
        let (_, number) = self.0[usize::from(seat)];
        let mut others = (0..).zip(self.0).filter(|(other, _)| *other != seat);
        others.any(|(_, (state, other))| {
            state != FREE && (state == RESERVED) == reserved && other == number
        })
    }
}

fn entry_mut(bytes: &mut [u8], seat: u8) -> &mut [u8] {
    &mut bytes[ENTRIES_AT + ENTRY * usize::from(seat)..][..ENTRY]
}

/// Whether `about` is a seat.
fn names_about(m: Message) -> bool {
    [1, 2, 5, 6].contains(&m.kind)
}

/// Whether there are any.
fn take_messages(bytes: &mut [u8], which: impl Fn(Message) -> bool) -> bool {
    let mut taken = false;
    let (words, _) = bytes[PENDING_AT..].as_chunks_mut::<8>();
    let words = words.iter_mut().enumerate();
    for (index, word) in words.filter(|(_, word)| **word != [0; 8]) {
        for bit in 0..64 {
            let mask = 1 << (bit % 8);
            if word[bit / 8] & mask != 0 && which(message_at(index * 64 + bit)) {
                word[bit / 8] &= !mask;
                taken = true;
            }
        }
    }
    taken
}
