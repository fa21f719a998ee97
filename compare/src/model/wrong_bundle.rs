//! Bundles that are not those of document 02, #101.

use super::{Fault, Message, Model};
use std::collections::VecDeque;

#[derive(Clone, Copy, PartialEq, Eq, Debug)]
pub(crate) enum WrongBundle {
    StopsOneShort,
    DeliversTheLargest,
    DeliversTheFirstSent,
    CountsOneTooMany,
    DeliversAtLimit0,
    CountsTheLimit,
}

impl Model {
    /// What a bundle with a fault does and counts; none without one.
    pub(super) fn wrong_bundle(&mut self, limit: u16) -> Option<u16> {
        let Some(Fault::Bundle(wrong)) = self.fault else {
            return None;
        };
        Some(match wrong {
            WrongBundle::StopsOneShort => self.smallest(limit.saturating_sub(1)),
            WrongBundle::DeliversTheLargest => self.largest(limit),
            WrongBundle::DeliversTheFirstSent => self.first_sent(limit),
            WrongBundle::CountsOneTooMany => self.smallest(limit).saturating_add(1),
            WrongBundle::DeliversAtLimit0 => self.smallest(limit.max(1)).min(limit),
            WrongBundle::CountsTheLimit => {
                self.smallest(limit);
                limit
            }
        })
    }

    fn smallest(&mut self, limit: u16) -> u16 {
        self.deliver_each(limit, |model| model.pending.first().copied())
    }

    fn largest(&mut self, limit: u16) -> u16 {
        self.deliver_each(limit, |model| model.pending.last().copied())
    }

    /// What is pending at first, the smallest first, then what was sent, in the
    /// order of sending.
    fn first_sent(&mut self, limit: u16) -> u16 {
        let mut waiting = VecDeque::from_iter(self.pending.iter().copied());
        self.deliver_each(limit, |model| {
            let message = waiting.pop_front()?;
            let sends = model.effect(message).sends.into_iter();
            waiting.extend(sends.filter(|sent| !model.is_pending(*sent)));
            Some(message)
        })
    }

    fn deliver_each(&mut self, limit: u16, mut next: impl FnMut(&Model) -> Option<Message>) -> u16 {
        let mut delivered = 0;
        while delivered < limit {
            let Some(message) = next(self) else {
                break;
            };
            self.deliver(message).expect("the message is pending");
            delivered += 1;
        }
        delivered
    }
}
