//! Makes a call on both sides and says what differs.

use crate::sys::{Make, Outcome};
use compare::call::{Answer, Call, NO_VALUES};
use compare::lent;

/// What a call showed.
#[derive(Clone, Copy, PartialEq, Eq, Debug)]
pub enum Difference {
    Answer {
        rust: Answer,
        library: Answer,
    },
    /// A byte of the record after an accepted call.
    Byte {
        at: usize,
        rust: u8,
        library: u8,
    },
    /// A byte of the record that a refused or a reading call changed.
    Changed {
        at: usize,
    },
    /// A byte in front of the record or behind it, counted from the record's
    /// start.
    Outside {
        at: isize,
    },
    BesideOutput,
    /// The model gives another answer than the calls on lent bytes.
    ModelAnswer {
        rust: Answer,
        model: Answer,
    },
    ModelByte {
        at: usize,
    },
}

/// Where the record lies in the memory that is watched.
#[derive(Clone, Copy, PartialEq, Eq, Debug)]
pub enum Memory {
    /// Between guard bytes.
    Guarded,
    /// In a block of its own, for a program that watches every access.
    Exact,
}

/// The count of guard bytes on each side.
const GUARD: usize = 256;

pub struct Judge {
    make: Make,
    memory: Memory,
    buffer: Vec<u8>,
    after: Vec<u8>,
}

impl Judge {
    pub fn new(make: Make, memory: Memory) -> Judge {
        Judge {
            make,
            memory,
            buffer: Vec::new(),
            after: Vec::new(),
        }
    }

    /// The record after the last call that showed no difference.
    pub fn after(&self) -> &[u8] {
        &self.after
    }

    /// Makes the call on copies of the record. `fill` is what outputs and guard
    /// bytes hold before.
    pub fn call(&mut self, record: &[u8], call: Call, fill: u64) -> Result<Answer, Difference> {
        self.after.clear();
        self.after.extend_from_slice(record);
        let rust = call.on_bytes(&mut self.after);
        let guard = match self.memory {
            Memory::Guarded => GUARD,
            Memory::Exact => 0,
        };
        self.lay_out(record, guard, fill as u8);
        let place = guard..guard + record.len();
        let Outcome { answer, beside } = (self.make)(&mut self.buffer, place, call, fill);
        if answer != rust {
            let library = answer;
            return Err(Difference::Answer { rust, library });
        }
        if beside {
            return Err(Difference::BesideOutput);
        }
        self.compare_guards(guard, record.len(), fill as u8)?;
        self.compare_bytes(record, guard, call, answer)?;
        Ok(answer)
    }

    fn lay_out(&mut self, record: &[u8], guard: usize, fill: u8) {
        if self.memory == Memory::Exact {
            // A new block, with nothing behind the record.
            self.buffer = Vec::with_capacity(record.len());
        }
        self.buffer.clear();
        self.buffer.resize(guard, fill);
        self.buffer.extend_from_slice(record);
        self.buffer.resize(record.len() + 2 * guard, fill);
    }

    fn compare_guards(&self, guard: usize, length: usize, fill: u8) -> Result<(), Difference> {
        let (front, rest) = self.buffer.split_at(guard);
        let is_other = |byte: &u8| *byte != fill;
        if let Some(at) = front.iter().position(is_other) {
            let at = at as isize - guard as isize;
            return Err(Difference::Outside { at });
        }
        match rest[length..].iter().position(is_other) {
            Some(at) => Err(Difference::Outside {
                at: (length + at) as isize,
            }),
            None => Ok(()),
        }
    }

    fn compare_bytes(
        &self,
        before: &[u8],
        guard: usize,
        call: Call,
        answer: Answer,
    ) -> Result<(), Difference> {
        let library = &self.buffer[guard..guard + before.len()];
        let must_stay = answer.refusal != 0 || !call.changes_bytes();
        if must_stay {
            if let Some(at) = first_other(library, before) {
                return Err(Difference::Changed { at });
            }
        }
        match first_other(library, &self.after) {
            Some(at) => Err(Difference::Byte {
                at,
                rust: self.after[at],
                library: library[at],
            }),
            None => Ok(()),
        }
    }

    /// Makes the last call, which gave `rust`, on the model.
    pub fn tie_to_model(&self, record: &[u8], call: Call, rust: Answer) -> Result<(), Difference> {
        let (model, bytes) = on_model(record, call);
        if model != rust {
            return Err(Difference::ModelAnswer { rust, model });
        }
        match first_other(&bytes, &self.after) {
            Some(at) => Err(Difference::ModelByte { at }),
            None => Ok(()),
        }
    }
}

/// The model's answer, and the bytes after.
fn on_model(record: &[u8], call: Call) -> (Answer, Vec<u8>) {
    if record.len() != lent::SIZE {
        return (Answer::refused(1), record.to_vec());
    }
    match lent::from_bytes(record) {
        Some(mut model) => {
            let answer = call.on_model(&mut model);
            (answer, lent::to_bytes(&model))
        }
        None if call == Call::Open => {
            let opened = compare::model::Model::open();
            (Answer::accepted(NO_VALUES), lent::to_bytes(&opened))
        }
        None => (Answer::refused(2), record.to_vec()),
    }
}

fn first_other(one: &[u8], other: &[u8]) -> Option<usize> {
    if one == other {
        return None;
    }
    one.iter().zip(other).position(|(x, y)| x != y)
}
