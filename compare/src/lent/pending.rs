//! The pending bits as words, with an index of the words that are not 0: the
//! smallest message is found without a search, however many are pending.

use super::layout::{WORD, WORDS};

/// The pending bits, 64 to a word, lowest byte first.
pub type Bits = [[u8; 8]; WORDS];

/// Words with a bit for each word of the pending bits; a bit for each of these
/// fits in one.
const PARTS: usize = WORDS.div_ceil(WORD);
const _: () = assert!(PARTS <= WORD);

/// Which words of the pending bits are not 0.
pub struct Index {
    /// A bit for each word.
    parts: [u64; PARTS],
    /// A bit for each part: whether it is not 0.
    whole: u64,
}

impl Index {
    pub fn new() -> Index {
        Index {
            parts: [0; PARTS],
            whole: 0,
        }
    }

    /// Takes in that a word is not 0.
    #[inline]
    pub fn note(&mut self, word: usize) {
        self.parts[word / WORD] |= 1 << (word % WORD);
        self.whole |= 1 << (word / WORD);
    }

    /// The first word that is not 0.
    #[inline]
    fn first(&self) -> Option<usize> {
        if self.whole == 0 {
            return None;
        }
        let part = self.whole.trailing_zeros() as usize;
        Some(part * WORD + self.parts[part].trailing_zeros() as usize)
    }

    /// Takes in that the first word is 0 now.
    #[inline]
    fn strike_first(&mut self) {
        let part = &mut self.parts[self.whole.trailing_zeros() as usize];
        *part &= *part - 1;
        if *part == 0 {
            self.whole &= self.whole - 1;
        }
    }
}

/// The pending messages by their places.
pub struct Pending<'a> {
    bits: &'a mut Bits,
    index: Index,
}

impl<'a> Pending<'a> {
    /// The index has noted every word that is not 0.
    pub fn new(bits: &'a mut Bits, index: Index) -> Pending<'a> {
        Pending { bits, index }
    }

    /// Makes the message of a place pending.
    #[inline]
    pub fn send(&mut self, place: usize) {
        let word = &mut self.bits[place / WORD];
        *word = (u64::from_le_bytes(*word) | 1 << (place % WORD)).to_le_bytes();
        self.index.note(place / WORD);
    }

    /// Takes the smallest message away; its place.
    #[inline]
    pub fn take_smallest(&mut self) -> Option<usize> {
        let first = self.index.first()?;
        let word = u64::from_le_bytes(self.bits[first]);
        let rest = word & word.wrapping_sub(1);
        self.bits[first] = rest.to_le_bytes();
        if rest == 0 {
            self.index.strike_first();
        }
        Some(first * WORD + word.trailing_zeros() as usize)
    }
}

#[cfg(test)]
mod tests {
    use super::super::layout::PLACES;
    use super::*;
    use crate::random::Random;
    use std::collections::BTreeSet;

    /// Ends of words, of parts and of all, and any place.
    fn some_place(random: &mut Random) -> usize {
        const PART: usize = WORD * WORD;
        let any = random.below(PLACES);
        random.pick(&[0, 1, WORD - 1, WORD, PART - 1, PART, PLACES - 1, any, any])
    }

    #[test]
    fn the_smallest_is_taken_beside_a_set() {
        let (mut random, mut set) = (Random::new(1), BTreeSet::new());
        let mut bits = [[0; 8]; WORDS];
        let mut pending = Pending::new(&mut bits, Index::new());
        for step in 0..40_000 {
            // First there are more and more, then fewer and fewer.
            if random.below(40_000) > step {
                let place = some_place(&mut random);
                set.insert(place);
                pending.send(place);
            }
            if random.below(40_000) < step {
                assert_eq!(pending.take_smallest(), set.pop_first());
            }
        }
        while let Some(place) = set.pop_first() {
            assert_eq!(pending.take_smallest(), Some(place));
        }
        assert_eq!(pending.take_smallest(), None);
        assert_eq!(bits, [[0; 8]; WORDS]);
    }

    #[test]
    fn noted_words_are_found() {
        let mut bits = [[0; 8]; WORDS];
        let mut index = Index::new();
        for word in [0, 63, 64, WORDS - 1] {
            bits[word] = 0x8000_0000_0000_0001u64.to_le_bytes();
            index.note(word);
        }
        let mut pending = Pending::new(&mut bits, index);
        for word in [0, 63, 64, WORDS - 1] {
            assert_eq!(pending.take_smallest(), Some(word * WORD));
            assert_eq!(pending.take_smallest(), Some(word * WORD + WORD - 1));
        }
        assert_eq!(pending.take_smallest(), None);
    }
}
