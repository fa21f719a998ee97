//! Two lots that are to hear of each other.

use super::record::send;
use super::sound::{self, Sound};
use super::{must_be_open, must_be_seat, must_be_seated, of_size};
use crate::model::{Message, Refusal};

/// Tells the first lot of the second at level 0, whatever else is pending.
/// Refusals: 1, 2, 3, 7, 8, 15.
pub fn merge(bytes: &mut [u8], first: u8, second: u8) -> Result<(), Refusal> {
    let Sound { record, .. } = sound::test(bytes)?;
    must_be_seat(first)?;
    must_be_seat(second)?;
    must_be_open(record)?;
    must_be_seated(record, first)?;
    must_be_seated(record, second)?;
    if first == second {
        return Err(Refusal::SameLot);
    }
    send(of_size(bytes)?, Message::meet(first, second, 0));
    Ok(())
}
