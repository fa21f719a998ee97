//! A list of calls put together beside a model, so that all that is pending can be
//! delivered in between.

use super::{join, Answered, OK};
use crate::call::{Answer, Call};
use crate::model::{Model, NO_CONTACT};

/// A list with a model beside it.
pub struct Steps {
    model: Model,
    pub steps: Answered,
}

impl Steps {
    pub fn new() -> Steps {
        Steps {
            model: Model::open(),
            steps: Answered::new(),
        }
    }

    pub fn say(&mut self, call: Call, answer: Answer) {
        call.on_model(&mut self.model);
        self.steps.push((call, answer));
    }

    pub fn say_all(&mut self, steps: &[(Call, Answer)]) {
        for &(call, answer) in steps {
            self.say(call, answer);
        }
    }

    /// Delivers the smallest message until none is pending.
    pub fn drain(&mut self) {
        while let Some(&message) = self.model.pending().first() {
            self.say(Call::Deliver(message), OK);
        }
    }

    /// The largest.
    pub fn drain_from_the_largest(&mut self) {
        while let Some(&message) = self.model.pending().last() {
            self.say(Call::Deliver(message), OK);
        }
    }
}

/// Joins lots on seats from 0 on, all through the first, and delivers all.
pub fn joined(lots: &[(u64, u8)]) -> Steps {
    let mut steps = Steps::new();
    for (seat, &(number, vector)) in (0..).zip(lots) {
        let contact = if seat == 0 { NO_CONTACT } else { 0 };
        steps.say(join(seat, number, vector, contact), OK);
    }
    steps.drain();
    steps
}
