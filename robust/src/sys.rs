//! Calls through the C interface of the static library, and not through the safe
//! wrapper: that would hide lengths, outputs and guard bytes.

use compare::call::{Answer, Call, NO_VALUES};
use compare::model::Message;
use lots_record::sys::*;
use std::ops::Range;

/// What came back from a call.
#[derive(Clone, Copy, PartialEq, Eq, Debug)]
pub struct Outcome {
    pub answer: Answer,
    /// A byte next to an output was written.
    pub beside: bool,
}

/// Makes a call on a part of `memory`; the rest is there to be watched. The
/// outputs hold `fill` before.
pub type Make = fn(memory: &mut [u8], record: Range<usize>, call: Call, fill: u64) -> Outcome;

/// The outputs of a call, each with a word of its own and words around it.
struct Outputs {
    words: [u64; WORDS],
    fill: u64,
}

/// A word for each output, and one before, between and behind them.
const WORDS: usize = 2 * NO_VALUES.len() + 1;

/// The bytes of each output.
type Widths = [usize; NO_VALUES.len()];

const NO_OUTPUT: Widths = [0; NO_VALUES.len()];
const ONE_BYTE: Widths = [1, 0, 0, 0, 0];

impl Outputs {
    fn new(fill: u64) -> Outputs {
        let words = [fill; WORDS];
        Outputs { words, fill }
    }

    /// Where output `index` begins.
    fn at<T>(&mut self, index: usize) -> *mut T {
        (&raw mut self.words[2 * index + 1]).cast()
    }

    fn outcome(&self, refusal: u8, widths: Widths) -> Outcome {
        let mut expected = [self.fill; WORDS];
        let mut values = NO_VALUES;
        for (index, width) in widths.into_iter().enumerate() {
            let mut bytes = [0; 8];
            let word = self.words[2 * index + 1].to_le_bytes();
            bytes[..width].copy_from_slice(&word[..width]);
            values[index] = u64::from_le_bytes(bytes);
            let mut kept = self.fill.to_le_bytes();
            kept[..width].copy_from_slice(&word[..width]);
            expected[2 * index + 1] = u64::from_le_bytes(kept);
        }
        Outcome {
            answer: Answer { refusal, values },
            beside: expected != self.words,
        }
    }
}

/// Makes a call through the static library.
pub fn make(memory: &mut [u8], record: Range<usize>, call: Call, fill: u64) -> Outcome {
    let record = &mut memory[record];
    let (start, length) = (record.as_mut_ptr(), record.len());
    let mut outputs = Outputs::new(fill);
    let out = &mut outputs;
    // SAFETY: the record is valid for its length, outputs are of their widths.
    let (refusal, widths) = unsafe {
        match call {
            Call::Open => (lots_open(start, length), NO_OUTPUT),
            Call::Join {
                seat,
                number,
                vector,
                contact,
            } => {
                let refusal = lots_join(start, length, seat, number, vector, contact);
                (refusal, NO_OUTPUT)
            }
            Call::Reserve {
                seat,
                number,
                vector,
            } => (lots_reserve(start, length, seat, number, vector), NO_OUTPUT),
            Call::Confirm { seat, contact } => {
                (lots_confirm(start, length, seat, contact), NO_OUTPUT)
            }
            Call::GiveBack { seat } => (lots_give_back(start, length, seat), NO_OUTPUT),
            Call::Leave { seat } => (lots_leave(start, length, seat), NO_OUTPUT),
            Call::Deliver(m) => (deliver(start, length, m), NO_OUTPUT),
            Call::Bundle { limit } => {
                let refusal = lots_bundle(start, length, limit, out.at(0));
                (refusal, [2, 0, 0, 0, 0])
            }
            Call::Turn => (lots_turn(start, length), NO_OUTPUT),
            Call::Crash { seats } => (lots_crash(start, length, seats), NO_OUTPUT),
            Call::Merge { first, second } => (lots_merge(start, length, first, second), NO_OUTPUT),
            Call::Find { seat, number } => {
                let refusal = lots_find(start, length, seat, number, out.at(0), out.at(1));
                (refusal, [1, 8, 0, 0, 0])
            }
            Call::Check => (lots_check(start, length, out.at(0)), ONE_BYTE),
            Call::ReadLot { seat } => {
                let (state, number, vector) = (out.at(0), out.at(1), out.at(2));
                let refusal = lots_read_lot(start, length, seat, state, number, vector);
                (refusal, [1, 8, 1, 0, 0])
            }
            Call::ReadLink { seat, level, side } => {
                let refusal = lots_read_link(start, length, seat, level, side, out.at(0));
                (refusal, ONE_BYTE)
            }
            Call::ReadMessage(m) => (read_message(start, length, m, out.at(0)), ONE_BYTE),
            Call::ReadCounts => {
                let refusal = lots_read_counts(start, length, out.at(0), out.at(1), out.at(2));
                (refusal, [1, 1, 4, 0, 0])
            }
            Call::Validate => (lots_validate(start, length), NO_OUTPUT),
            Call::NextMessage(m) => (next_message(start, length, m, out), [1; 5]),
        }
    };
    outputs.outcome(refusal, widths)
}

unsafe fn deliver(start: *mut u8, length: usize, m: Message) -> u8 {
    lots_deliver(start, length, m.kind, m.to, m.about, m.level, m.side)
}

unsafe fn read_message(start: *const u8, length: usize, m: Message, pending: *mut u8) -> u8 {
    let (kind, to, about) = (m.kind, m.to, m.about);
    lots_read_message(start, length, kind, to, about, m.level, m.side, pending)
}

unsafe fn next_message(start: *const u8, length: usize, m: Message, out: &mut Outputs) -> u8 {
    let (kind, to, about) = (out.at(0), out.at(1), out.at(2));
    let (level, side) = (out.at(3), out.at(4));
    lots_next_message(
        start, length, m.kind, m.to, m.about, m.level, m.side, kind, to, about, level, side,
    )
}
