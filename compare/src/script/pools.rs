//! The seats, numbers and vectors that a script draws from. Few enough that
//! seats, numbers and vectors come back within a script.

use crate::graph::{BITS, SEATS};
use crate::random::Random;

/// By how many the soundness test divides numbers, to compare only lots whose
/// numbers leave the same remainder: `BUCKETS` of crates/soundness.
pub const REMAINDERS: u64 = 509;

#[derive(Clone, Copy)]
pub enum Numbers {
    /// A hundred and up.
    Close,
    /// Anywhere in 64 bits.
    Spread,
    /// Both ends, powers of two and their neighbours.
    Edge,
    /// At equal distances, so that all leave one remainder.
    Alike,
}

#[derive(Clone, Copy)]
pub enum Vectors {
    Any,
    /// Two or three different ones.
    Few,
    Equal,
    /// All bits equal but the last two.
    LastBits,
    /// A single bit set, or none.
    OneBit,
}

pub struct Pools {
    pub seats: Vec<u8>,
    pub numbers: Vec<u64>,
    pub vectors: Vec<u8>,
}

impl Pools {
    pub fn new(seats: usize, numbers: Numbers, vectors: Vectors, random: &mut Random) -> Pools {
        Pools {
            seats: some_seats(seats, random),
            // More than seats, so that a free number is always left.
            numbers: some_numbers(numbers, seats + seats / 2 + 1, random),
            vectors: some_vectors(vectors, random),
        }
    }
}

/// Different seats, the first and the last one often among them.
fn some_seats(count: usize, random: &mut Random) -> Vec<u8> {
    let mut free: Vec<u8> = (0..SEATS as u8).collect();
    if random.one_in(2) {
        free.swap(0, 1);
        free.swap(1, SEATS - 1);
    } else {
        shuffle(&mut free, random);
    }
    free.truncate(count);
    free
}

fn shuffle<T>(items: &mut [T], random: &mut Random) {
    for end in (1..items.len()).rev() {
        items.swap(end, random.below(end + 1));
    }
}

fn some_numbers(numbers: Numbers, count: usize, random: &mut Random) -> Vec<u64> {
    let mut some: Vec<u64> = match numbers {
        Numbers::Close => (0..count as u64).map(|n| 100 + n).collect(),
        Numbers::Spread => (0..count).map(|_| random.next()).collect(),
        Numbers::Edge => edges(),
        Numbers::Alike => (1..=count as u64).map(|n| REMAINDERS * n).collect(),
    };
    shuffle(&mut some, random);
    let ends = [0, u64::MAX];
    some.retain(|number| !ends.contains(number));
    some.truncate(count);
    if !matches!(numbers, Numbers::Close | Numbers::Alike) {
        some.extend(ends);
    }
    some
}

/// 0, 2^64 - 1, and each power of two with its neighbours.
fn edges() -> Vec<u64> {
    let mut edges = vec![u64::MAX];
    for shift in 0..u64::BITS {
        let power = 1u64 << shift;
        edges.extend([power - 1, power, power + 1]);
    }
    edges.sort_unstable();
    edges.dedup();
    edges
}

fn some_vectors(vectors: Vectors, random: &mut Random) -> Vec<u8> {
    let any = random.byte();
    let base = random.pick(&[0, 255, any]);
    match vectors {
        Vectors::Any => (0..=u8::MAX).collect(),
        Vectors::Few => vec![base, !base, base ^ (1 << random.below(BITS))],
        Vectors::Equal => vec![base],
        Vectors::LastBits => (0..4).map(|bits| base ^ bits).collect(),
        Vectors::OneBit => (0..=BITS).map(|bit| (1u16 << bit) as u8).collect(),
    }
}
