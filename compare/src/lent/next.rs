//! The pending messages one after the other: the smallest by the five numbers,
//! at or after given ones.

use super::layout::{message_at, Bytes, PENDING_AT, PLACES, WORD};
use super::sound::BLOCK;
use crate::model::Message;

/// The smallest pending message that is not below `from`. Places ascend with the
/// five numbers (docs/RECORD.md).
pub fn next_pending(bytes: &Bytes, from: Message) -> Option<Message> {
    let (words, _) = bytes[PENDING_AT..].as_chunks();
    let place = first_place(from);
    let (index, below) = (place / WORD, place % WORD);
    let (&word, rest) = words[index..].split_first()?;
    let word = u64::from_le_bytes(word) >> below << below;
    let place = match word {
        0 => (index + 1) * WORD + first_set(rest)?,
        bits => index * WORD + bits.trailing_zeros() as usize,
    };
    Some(message_at(place))
}

/// The first bit that is set, words of 0 passed over a block at a time.
fn first_set(words: &[[u8; 8]]) -> Option<usize> {
    let all = |block: &[[u8; 8]]| {
        let word = |all, &word| all | u64::from_le_bytes(word);
        block.iter().fold(0, word)
    };
    let before = BLOCK * words.chunks(BLOCK).position(|block| all(block) != 0)?;
    let index = before + words[before..].iter().position(|&word| word != [0; 8])?;
    let bit = u64::from_le_bytes(words[index]).trailing_zeros() as usize;
    Some(index * WORD + bit)
}

/// The first place whose message is not below `from`, found by halving.
fn first_place(from: Message) -> usize {
    let (mut low, mut high) = (0, PLACES);
    while low < high {
        let middle = (low + high) / 2;
        match message_at(middle) < from {
            true => low = middle + 1,
            false => high = middle,
        }
    }
    low
}

#[cfg(test)]
mod tests {
    use super::*;
    use crate::lent::{messages, SIZE};

    fn message(numbers: [u8; 5]) -> Message {
        let [kind, to, about, level, side] = numbers;
        Message {
            kind,
            to,
            about,
            level,
            side,
        }
    }

    #[test]
    fn places_ascend_with_the_five_numbers() {
        let all = messages();
        assert!(all.windows(2).all(|pair| pair[0] < pair[1]));
        for (place, &message) in all.iter().enumerate() {
            assert_eq!(first_place(message), place);
        }
    }

    #[test]
    fn numbers_that_no_message_has() {
        let bound = |numbers| first_place(message(numbers));
        let after = |numbers| messages().binary_search(&message(numbers)).unwrap() + 1;
        assert_eq!(bound([0, 255, 255, 255, 255]), 0);
        assert_eq!(bound([8, 0, 0, 0, 0]), PLACES);
        assert_eq!(bound([7, 64, 0, 0, 0]), PLACES);
        assert_eq!(bound([1, 5, 64, 0, 0]), after([1, 5, 63, 8, 0]));
        assert_eq!(bound([1, 5, 63, 8, 1]), after([1, 5, 63, 8, 0]));
        assert_eq!(bound([2, 5, 62, 8, 0]), after([2, 5, 62, 7, 0]));
        assert_eq!(bound([4, 5, 1, 0, 0]), after([4, 5, 0, 8, 1]));
    }

    #[test]
    fn each_in_its_turn() {
        let mut bytes = [0; SIZE];
        let places = [0, 1, 7, 8, 36_863, 36_864, 71_681, 109_696, PLACES - 1];
        for place in places {
            bytes[PENDING_AT + place / 8] |= 1 << (place % 8);
        }
        let mut from = message([0; 5]);
        for place in places {
            let next = messages()[place];
            assert_eq!(next_pending(&bytes, from), Some(next));
            assert_eq!(next_pending(&bytes, next), Some(next));
            from = Message {
                side: next.side + 1,
                ..next
            };
        }
        assert_eq!(next_pending(&bytes, from), None);
    }
}
