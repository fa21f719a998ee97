//! The turn: into clearing, where the leavers' neighbours find each other, and back
//! to open without the leavers.

use super::{Message, Model, Phase, Refusal, State};
use crate::graph::{Links, SIDES};

impl Model {
    /// Goes from open with leavers to clearing, and from clearing to open.
    /// Refusals: 11.
    pub fn turn(&mut self) -> Result<(), Refusal> {
        self.must_be_drained()?;
        match self.phase {
            Phase::Open => self.begin_clearing(),
            Phase::Clearing => self.end_clearing(),
        }
        Ok(())
    }

    fn begin_clearing(&mut self) {
        let leavers = || self.seated().filter(|(_, lot)| lot.state == State::Leaving);
        if leavers().next().is_none() {
            return;
        }
        let sends: Vec<Message> = leavers().flat_map(|(_, lot)| goings(&lot.links)).collect();
        self.pending.extend(sends);
        self.phase = Phase::Clearing;
    }

    fn end_clearing(&mut self) {
        self.free(|_, lot| lot.state == State::Leaving);
        self.phase = Phase::Open;
    }
}

/// What a leaver with these links sends: the receiver has it on the other side.
fn goings(links: &Links) -> Vec<Message> {
    let mut sends = Vec::new();
    for (level, pair) in (0u8..).zip(links) {
        for side in SIDES {
            let going = |to| Message::going(to, level, side.away());
            sends.extend(pair[side as usize].map(going));
        }
    }
    sends
}
