//! Records and calls from a seed: sound records put together field by field,
//! damaged ones, and calls that mostly speak of what a record holds.

mod calls;
mod damage;
mod sound;

use crate::lent::place::{ENTRIES_AT, ENTRY, STATE_AT};
use crate::model::State;
use crate::random::Random;
use crate::script::{Numbers, Pools, Vectors};

pub use calls::{call, Style};
pub use damage::damage;
pub use sound::{settled_record, sound_record};

/// Seats, numbers and vectors for one record and the calls on it.
pub fn pools(random: &mut Random) -> Pools {
    let seats = random.pick(&[1, 2, 2, 3, 3, 4, 5, 6, 8, 12, 20, 32, 63, 64, 64]);
    let numbers = random.pick(&[
        Numbers::Close,
        Numbers::Spread,
        Numbers::Edge,
        Numbers::Alike,
    ]);
    let vectors = random.pick(&[
        Vectors::Any,
        Vectors::Any,
        Vectors::Few,
        Vectors::Equal,
        Vectors::LastBits,
        Vectors::OneBit,
    ]);
    Pools::new(seats, numbers, vectors, random)
}

/// Where the entry of a seat begins.
fn entry_at(seat: usize) -> usize {
    ENTRIES_AT + ENTRY * seat
}

fn state(bytes: &[u8], seat: usize) -> u8 {
    bytes[entry_at(seat) + STATE_AT]
}

fn is_seated(state: u8) -> bool {
    state == State::Staying as u8 || state == State::Leaving as u8
}

fn is_reserved(state: u8) -> bool {
    state == State::Reserved as u8
}
