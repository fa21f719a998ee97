//! Scripts from a seed. Each belongs to a family, which says from which seats,
//! numbers and vectors it draws and how often it takes each step.

mod damage;
pub mod fixed;
mod pools;
mod writer;

use crate::random::Random;
use writer::Writer;

pub use pools::{Numbers, Pools, Vectors, REMAINDERS};

/// Lines, each with its newline; the last may lack it.
pub type Script = Vec<Vec<u8>>;

/// One thing that a script does next: a line, or a few that belong together.
#[derive(Clone, Copy, PartialEq, Eq, Debug)]
enum Step {
    /// A join that is likely accepted.
    Join,
    /// A few joins, messages of one crossing those of the next.
    Arrivals,
    /// Joins until every seat of the pool is taken.
    Fill,
    Leave,
    /// Several leaves.
    Departures,
    /// One delivery of a pending message.
    Deliver,
    /// Deliveries in some order until nothing is pending.
    Drain,
    Turn,
    /// `A`.
    Settle,
    /// Settles, turns, settles and turns: the leavers' seats are free again.
    Clear,
    /// Several leave a settled record, which is cleared in some order.
    Depart,
    /// All lots leave, and the record is empty.
    Empty,
    Find,
    /// A search for one number from every seated lot.
    FindFromAll,
    /// Searches of a settled record around lots that leave.
    FindPastLeavers,
    Print,
    /// A delivery of five numbers that are likely not pending.
    Absent,
    /// A call with arguments likely to be refused.
    Refused,
    /// A line of another form, or nearly one.
    Damaged,
}

struct Family {
    /// How many seats a script uses: one of these.
    seats: &'static [usize],
    numbers: &'static [Numbers],
    vectors: &'static [Vectors],
    /// How often each step is taken, in proportion.
    steps: &'static [(Step, usize)],
}

const ANY_NUMBERS: &[Numbers] = &[Numbers::Close, Numbers::Spread, Numbers::Edge];
const ANY_VECTORS: &[Vectors] = &[
    Vectors::Any,
    Vectors::Few,
    Vectors::Equal,
    Vectors::LastBits,
    Vectors::OneBit,
];

/// The families, and how often each comes up in proportion. Full records cost
/// many deliveries a line, so they are rarer.
const FAMILIES: [(&Family, usize); 11] = [
    (&SMALL, 4),
    (&CROSSING, 4),
    (&DEPARTING, 3),
    (&REUSED, 4),
    (&EDGE, 3),
    (&EQUAL, 3),
    (&FULL, 1),
    (&ABSENT, 3),
    (&REFUSED, 3),
    (&DAMAGED, 4),
    (&MIXED, 4),
];

/// Small records, drained in many orders.
const SMALL: Family = Family {
    seats: &[2, 3, 4, 5, 6, 7],
    numbers: ANY_NUMBERS,
    vectors: ANY_VECTORS,
    steps: &[
        (Step::Arrivals, 8),
        (Step::Drain, 10),
        (Step::Departures, 2),
        (Step::Turn, 5),
        (Step::Clear, 2),
        (Step::Empty, 1),
        (Step::Print, 10),
        (Step::Find, 5),
        (Step::FindFromAll, 2),
        (Step::FindPastLeavers, 2),
    ],
};

/// Joins and leaves that cross the messages of others.
const CROSSING: Family = Family {
    seats: &[5, 8, 12, 20],
    numbers: ANY_NUMBERS,
    vectors: ANY_VECTORS,
    steps: &[
        (Step::Join, 12),
        (Step::Leave, 4),
        (Step::Deliver, 60),
        (Step::Drain, 1),
        (Step::Turn, 4),
        (Step::Clear, 1),
        (Step::Find, 6),
        (Step::FindPastLeavers, 1),
        (Step::Print, 8),
    ],
};

/// Many leavers at once, neighbours among them.
const DEPARTING: Family = Family {
    seats: &[4, 8, 14, 24],
    numbers: ANY_NUMBERS,
    vectors: ANY_VECTORS,
    steps: &[
        (Step::Fill, 2),
        (Step::Arrivals, 1),
        (Step::Depart, 6),
        (Step::Deliver, 4),
        (Step::Find, 2),
        (Step::FindPastLeavers, 2),
        (Step::Print, 1),
    ],
};

/// Two to four seats that many lots follow each other on.
const REUSED: Family = Family {
    seats: &[2, 3, 4],
    numbers: ANY_NUMBERS,
    vectors: ANY_VECTORS,
    steps: &[
        (Step::Join, 15),
        (Step::Leave, 12),
        (Step::Deliver, 15),
        (Step::Drain, 6),
        (Step::Turn, 25),
        (Step::Settle, 3),
        (Step::Clear, 2),
        (Step::Find, 8),
        (Step::FindPastLeavers, 3),
        (Step::Print, 15),
    ],
};

/// The ends of the range of numbers, the first and the last seat.
const EDGE: Family = Family {
    seats: &[4, 7, 10],
    numbers: &[Numbers::Edge],
    vectors: ANY_VECTORS,
    steps: &[
        (Step::Join, 10),
        (Step::Leave, 4),
        (Step::Deliver, 20),
        (Step::Drain, 3),
        (Step::Turn, 5),
        (Step::Clear, 1),
        (Step::Find, 30),
        (Step::FindFromAll, 4),
        (Step::FindPastLeavers, 3),
        (Step::Print, 8),
    ],
};

/// Vectors that share all or nearly all bits: long lists at high levels.
const EQUAL: Family = Family {
    seats: &[3, 6, 12],
    numbers: ANY_NUMBERS,
    vectors: &[Vectors::Equal, Vectors::LastBits],
    steps: &[
        (Step::Arrivals, 4),
        (Step::Departures, 2),
        (Step::Deliver, 30),
        (Step::Drain, 3),
        (Step::Turn, 5),
        (Step::Settle, 1),
        (Step::Clear, 2),
        (Step::Find, 10),
        (Step::FindPastLeavers, 2),
        (Step::Print, 10),
    ],
};

/// Up to all 64 seats.
const FULL: Family = Family {
    seats: &[33, 63, 64, 64],
    numbers: ANY_NUMBERS,
    vectors: &[Vectors::Any, Vectors::Any, Vectors::Few, Vectors::LastBits],
    steps: &[
        (Step::Fill, 4),
        (Step::Join, 4),
        (Step::Leave, 3),
        (Step::Depart, 1),
        (Step::Deliver, 60),
        (Step::Turn, 2),
        (Step::Clear, 1),
        (Step::Find, 40),
        (Step::FindFromAll, 1),
        (Step::FindPastLeavers, 1),
        (Step::Print, 10),
        (Step::Absent, 4),
    ],
};

/// Deliveries of messages that are not there, and of no message at all.
const ABSENT: Family = Family {
    seats: &[4, 7, 10],
    numbers: ANY_NUMBERS,
    vectors: ANY_VECTORS,
    steps: &[
        (Step::Arrivals, 3),
        (Step::Leave, 3),
        (Step::Deliver, 30),
        (Step::Drain, 1),
        (Step::Turn, 5),
        (Step::Clear, 1),
        (Step::Absent, 50),
        (Step::Print, 10),
    ],
};

/// Calls that rows of the table refuse, often several rows at once.
const REFUSED: Family = Family {
    seats: &[4, 7, 10],
    numbers: ANY_NUMBERS,
    vectors: ANY_VECTORS,
    steps: &[
        (Step::Join, 8),
        (Step::Leave, 5),
        (Step::Deliver, 15),
        (Step::Drain, 3),
        (Step::Turn, 12),
        (Step::Clear, 1),
        (Step::Refused, 50),
        (Step::Print, 10),
    ],
};

/// Lines of another form between good ones.
const DAMAGED: Family = Family {
    seats: &[4, 7, 10],
    numbers: ANY_NUMBERS,
    vectors: ANY_VECTORS,
    steps: &[
        (Step::Join, 8),
        (Step::Leave, 3),
        (Step::Deliver, 20),
        (Step::Drain, 1),
        (Step::Turn, 4),
        (Step::Settle, 1),
        (Step::Clear, 1),
        (Step::Find, 5),
        (Step::Damaged, 50),
        (Step::Print, 10),
    ],
};

/// Everything at once.
const MIXED: Family = Family {
    seats: &[4, 10, 30],
    numbers: ANY_NUMBERS,
    vectors: ANY_VECTORS,
    steps: &[
        (Step::Join, 10),
        (Step::Arrivals, 1),
        (Step::Leave, 5),
        (Step::Departures, 1),
        (Step::Deliver, 40),
        (Step::Drain, 1),
        (Step::Turn, 8),
        (Step::Settle, 1),
        (Step::Clear, 1),
        (Step::Empty, 1),
        (Step::Find, 10),
        (Step::FindFromAll, 1),
        (Step::FindPastLeavers, 1),
        (Step::Print, 10),
        (Step::Absent, 8),
        (Step::Refused, 8),
        (Step::Damaged, 8),
    ],
};

/// The script `index` of the run of a seed, of about `lines` lines. The first
/// is empty, and about each tenth has only a few lines.
pub fn generate(seed: u64, index: u64, lines: usize) -> Script {
    let mut random = Random::of_script(seed, index);
    let family = random.pick_weighted(&FAMILIES);
    let pools = family.pools(&mut random);
    let limit = match index {
        0 => 0,
        _ if random.one_in(10) => random.below(lines.min(12) + 1),
        _ => lines,
    };
    let mut writer = Writer::new(random, pools, limit);
    while !writer.is_done() {
        let step = writer.random.pick_weighted(family.steps);
        writer.step(step);
    }
    writer.finish()
}

impl Family {
    fn pools(&self, random: &mut Random) -> Pools {
        let seats = random.pick(self.seats);
        let numbers = random.pick(self.numbers);
        let vectors = random.pick(self.vectors);
        Pools::new(seats, numbers, vectors, random)
    }
}
