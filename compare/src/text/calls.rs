//! A line as the call that it makes, and its answer as plain numbers.

use super::{Answer, Command};
use crate::call::{self, Call, NO_VALUES};

impl Command {
    /// The call that the line makes; none if it makes several, or readings.
    pub fn call(self) -> Option<Call> {
        match self {
            Command::Join {
                seat,
                number,
                vector,
                contact,
            } => Some(Call::Join {
                seat,
                number,
                vector,
                contact,
            }),
            Command::Leave { seat } => Some(Call::Leave { seat }),
            Command::Deliver(message) => Some(Call::Deliver(message)),
            Command::Turn => Some(Call::Turn),
            Command::Find {
                start: seat,
                number,
            } => Some(Call::Find { seat, number }),
            Command::Settle | Command::Print => None,
        }
    }
}

impl Answer {
    /// As plain numbers: the refusal, and what a search found.
    pub fn numbers(&self) -> call::Answer {
        match self {
            Answer::No(refusal) => call::Answer::refused(refusal.number()),
            Answer::Found(found) => call::Answer::found(*found),
            _ => call::Answer::accepted(NO_VALUES),
        }
    }
}
