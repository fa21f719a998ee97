//! Rows 1 and 2 of the table: the size, and the paragraph "Sound".

use super::layout::*;
use super::record::{number_of, Record};
use crate::graph::{LEVELS, SEATS};
use crate::model::{shared_bits, Kind, Message, Phase, Refusal};

/// What the test of a sound record has seen on its way.
pub struct Sound<'a> {
    pub record: Record<'a>,
    /// Bit s is set if seat s is in that state.
    pub seated: u64,
    pub leaving: u64,
    /// The count of pending messages.
    pub pending: u32,
}

/// Seats ascending by the numbers of their lots.
struct Order {
    seats: [u8; SEATS],
    count: usize,
}

impl Order {
    fn new() -> Order {
        Order {
            seats: [0; SEATS],
            count: 0,
        }
    }
}

/// Refusals: 1, 2.
#[inline]
pub fn test(bytes: &[u8]) -> Result<Sound<'_>, Refusal> {
    test_and_see(bytes, &mut |_| ())
}

/// As [`test`], and gives `see` the index of each word of pending bits that is
/// not 0. Refusals: 1, 2.
#[inline]
pub fn test_and_see<'a>(
    bytes: &'a [u8],
    see: &mut impl FnMut(usize),
) -> Result<Sound<'a>, Refusal> {
    let bytes: &Bytes = bytes.try_into().map_err(|_| Refusal::WrongSize)?;
    sound(Record(bytes), see).ok_or(Refusal::Unsound)
}

fn sound<'a>(record: Record<'a>, see: &mut impl FnMut(usize)) -> Option<Sound<'a>> {
    let phase = match record.0[PHASE_AT] {
        0 => Phase::Open,
        1 => Phase::Clearing,
        _ => return None,
    };
    let lots = Lots::read(record)?;
    let mut order = Order::new();
    lots.sort_into(&mut order)?;
    lots.links_are_sound(record, &order).then_some(())?;
    let pending = lots.sound_pending(record, phase, see)?;
    Some(Sound {
        record,
        seated: lots.seated,
        leaving: lots.leaving,
        pending,
    })
}

/// The lots of a record, by seat.
struct Lots {
    seated: u64,
    leaving: u64,
    reserved: u64,
    numbers: [u64; SEATS],
    vectors: [u8; SEATS],
}

impl Lots {
    /// None if a state is not 0 to 3, a free seat's entry is not as opened or a
    /// reserved lot has a link.
    fn read(record: Record) -> Option<Lots> {
        let mut lots = Lots {
            seated: 0,
            leaving: 0,
            reserved: 0,
            numbers: [0; SEATS],
            vectors: [0; SEATS],
        };
        for (seat, entry) in record.entries().iter().enumerate() {
            match entry[STATE_AT] {
                0 if *entry == FREE => continue,
                1 => lots.seated |= 1 << seat,
                2 => {
                    lots.seated |= 1 << seat;
                    lots.leaving |= 1 << seat;
                }
                3 if entry[LINKS_AT..] == FREE[LINKS_AT..] => lots.reserved |= 1 << seat,
                _ => return None,
            }
            lots.numbers[seat] = number_of(entry);
            lots.vectors[seat] = entry[VECTOR_AT];
        }
        Some(lots)
    }

    /// None if two lots have the same number, seated or reserved.
    fn sort_into(&self, order: &mut Order) -> Option<()> {
        for seat in seats(self.seated | self.reserved) {
            order.seats[order.count] = seat;
            order.count += 1;
        }
        let number = |seat: &u8| self.numbers[usize::from(*seat)];
        let seats = &mut order.seats[..order.count];
        seats.sort_unstable_by_key(number);
        let differ = |pair: &[u8]| number(&pair[0]) != number(&pair[1]);
        seats.windows(2).all(differ).then_some(())
    }

    fn links_are_sound(&self, record: Record, order: &Order) -> bool {
        let mut below = 0;
        for &seat in &order.seats[..order.count] {
            let me = self.seated & 1 << seat;
            let above = self.seated & !below & !me;
            if !self.entry_is_sound(record.entry(seat), below, above) {
                return false;
            }
            below |= me;
        }
        true
    }

    /// Every link names a seated lot of its side that shares the level's bits.
    fn entry_is_sound(&self, entry: &Entry, below: u64, above: u64) -> bool {
        let vector = entry[VECTOR_AT];
        (0..LEVELS).all(|level| {
            let sound = |link: u8, side: u64| {
                link == NO_LINK
                    || usize::from(link) < SEATS
                        && side >> link & 1 == 1
                        && self.shares(link, vector, level)
            };
            sound(entry[link_at(level, 0)], below) && sound(entry[link_at(level, 1)], above)
        })
    }

    fn shares(&self, seat: u8, vector: u8, level: usize) -> bool {
        shared_bits(self.vectors[usize::from(seat) % SEATS], vector) as usize >= level
    }

    /// The count of pending messages; none if one is not sound.
    fn sound_pending(
        &self,
        record: Record,
        phase: Phase,
        see: &mut impl FnMut(usize),
    ) -> Option<u32> {
        let (words, _) = record.0[PENDING_AT..].as_chunks();
        let mut count = 0;
        for (index, block) in words.chunks(BLOCK).enumerate() {
            if block
                .iter()
                .fold(0, |all, &word| all | u64::from_le_bytes(word))
                != 0
            {
                count += self.sound_block(block, index * BLOCK, phase, see)?;
            }
        }
        Some(count)
    }

    fn sound_block(
        &self,
        block: &[[u8; 8]],
        first: usize,
        phase: Phase,
        see: &mut impl FnMut(usize),
    ) -> Option<u32> {
        let mut count = 0;
        for (index, &word) in (first..).zip(block) {
            let mut bits = u64::from_le_bytes(word);
            if bits != 0 {
                see(index);
            }
            count += bits.count_ones();
            while bits != 0 {
                let place = index * WORD + bits.trailing_zeros() as usize;
                self.fits(message_at(place), phase).then_some(())?;
                bits &= bits - 1;
            }
        }
        Some(count)
    }

    fn fits(&self, m: Message, phase: Phase) -> bool {
        let staying = self.seated & !self.leaving;
        let is = |seat: u8, lots: u64| lots >> (seat % 64) & 1 == 1;
        let two_lots = || {
            m.to != m.about
                && is(m.to, self.seated)
                && is(m.about, self.seated)
                && self.shares(
                    m.to,
                    self.vectors[usize::from(m.about) % SEATS],
                    m.level.into(),
                )
        };
        let (fits, of) = match m.kind() {
            Some(Kind::Meet | Kind::Probe) => (two_lots(), Phase::Open),
            Some(Kind::Pull) => (is(m.to, self.seated), Phase::Open),
            Some(Kind::Going) => (is(m.to, self.seated), Phase::Clearing),
            Some(Kind::Seek) => (two_lots() && is(m.about, staying), Phase::Clearing),
            Some(Kind::Found) => {
                let both = is(m.to, staying) && is(m.about, staying);
                (two_lots() && both, Phase::Clearing)
            }
            Some(Kind::None) => (is(m.to, staying), Phase::Clearing),
            None => return false,
        };
        fits && of == phase
    }
}

/// Words of pending bits that are passed over together while all are 0.
pub const BLOCK: usize = 64;

/// The seats of a set, ascending.
#[inline]
pub fn seats(mut set: u64) -> impl Iterator<Item = u8> {
    std::iter::from_fn(move || {
        let seat = (set != 0).then_some(set.trailing_zeros() as u8);
        set &= set.wrapping_sub(1);
        seat
    })
}
