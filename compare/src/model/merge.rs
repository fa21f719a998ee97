//! Two lots that are to hear of each other (document 02, #107).

use super::{must_be_seat, Message, Model, Refusal};

impl Model {
    /// Tells the first lot of the second at level 0, whatever else is pending.
    /// Refusals: 3, 7, 8, 15.
    pub fn merge(&mut self, first: u8, second: u8) -> Result<(), Refusal> {
        must_be_seat(first)?;
        must_be_seat(second)?;
        self.must_be_open()?;
        self.seated_lot(first)?;
        self.seated_lot(second)?;
        if first == second {
            return Err(Refusal::SameLot);
        }
        self.pending.insert(Message::meet(first, second, 0));
        Ok(())
    }
}
