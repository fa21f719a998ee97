//! Searches: of the record as it stands, often refused with 13, of a settled one,
//! and past lots that are leaving.

use super::Writer;
use crate::model::Phase;

impl Writer {
    pub(super) fn find(&mut self) {
        let seats = self.seats(None);
        let start = match seats.is_empty() || self.random.one_in(12) {
            true => self.some_seat(),
            false => self.random.pick(&seats),
        };
        let number = self.some_number();
        self.say(format!("F {start} {number}"));
    }

    /// A few searches among lots that are settled.
    pub(super) fn find_if_settled(&mut self) {
        if !self.seats(None).is_empty() && self.model.is_settled() {
            for _ in 0..1 + self.random.below(4) {
                self.find();
            }
        }
    }

    /// Lots in a row by number leave a settled record, unless they do already, and
    /// numbers around them are searched for.
    pub(super) fn find_past_leavers(&mut self) {
        self.say("A");
        if self.model.phase() == Phase::Clearing {
            self.say("T");
        }
        let seats = self.seats(None);
        if seats.is_empty() {
            return self.join();
        }
        let row = self.some_row();
        for (_, seat) in &row {
            self.say(format!("L {seat}"));
        }
        for _ in 0..2 + self.random.below(4) {
            let start = self.random.pick(&seats);
            let (number, _) = self.random.pick(&row);
            let number = self.near(number);
            self.say(format!("F {start} {number}"));
        }
    }

    /// Lots that follow each other by number, with their seats. Mostly others lie
    /// on their left.
    fn some_row(&mut self) -> Vec<(u64, u8)> {
        let lots = self.model.seated().map(|(seat, lot)| (lot.number, seat));
        let mut lots: Vec<(u64, u8)> = lots.collect();
        lots.sort_unstable();
        let some = self.random.below(lots.len());
        let from = some.max(self.random.below(lots.len()));
        let most = self.random.pick(&[1, 1, 2, 3, 5, lots.len()]);
        lots.into_iter().skip(from).take(most).collect()
    }

    pub(super) fn find_from_all(&mut self) {
        let number = self.some_number();
        for start in self.seats(None) {
            self.say(format!("F {start} {number}"));
        }
    }
}
