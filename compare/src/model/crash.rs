//! Lots that went without leaving (document 02, #106).

use super::{Message, Model, Refusal};

impl Model {
    /// Frees the seats of a set, bit 0 the lowest for seat 0, and lets the ends of
    /// each link above level 0 that is left meet at level 0. The set 0 changes
    /// nothing. Refusals: 7, 8, 11.
    pub fn crash(&mut self, seats: u64) -> Result<(), Refusal> {
        self.must_be_open()?;
        self.must_be_seated(seats)?;
        self.must_be_drained()?;
        if seats != 0 {
            self.free(|seat, _| is_in(seats, seat));
            let meetings = self.meetings();
            self.pending.extend(meetings);
        }
        Ok(())
    }

    /// Staying or leaving, each of them.
    fn must_be_seated(&self, seats: u64) -> Result<(), Refusal> {
        let mut named = (0..u64::BITS as u8).filter(|&seat| is_in(seats, seat));
        match named.all(|seat| self.seated_at(seat).is_some()) {
            true => Ok(()),
            false => Err(Refusal::EmptySeat),
        }
    }

    /// For each link above level 0, to each end about the other.
    fn meetings(&self) -> Vec<Message> {
        let mut sends = Vec::new();
        for (seat, lot) in self.seated() {
            for pair in &lot.links[1..] {
                for &link in pair.iter().flatten() {
                    sends.push(Message::meet(seat, link, 0));
                    sends.push(Message::meet(link, seat, 0));
                }
            }
        }
        sends
    }
}

/// Whether a set names a seat.
pub fn is_in(seats: u64, seat: u8) -> bool {
    seats >> seat & 1 == 1
}
