//! The lots one after the other.

use crate::names::State;
use crate::reading::Lot;
use crate::record::Record;
use crate::refusal::Refusal;
use crate::SEATS;
use core::iter::FusedIterator;
use core::ops::Range;

/// Lots of a record with their seats, ascending by seat; made by
/// [`Record::lots`] and [`Record::taken`].
#[derive(Clone, Debug)]
pub struct Lots<'a> {
    record: Record<&'a [u8]>,
    /// The seats that are still to be read.
    seats: Range<u8>,
    reserved_too: bool,
}

impl<'a> Lots<'a> {
    pub(crate) fn over(bytes: &'a [u8], reserved_too: bool) -> Result<Self, Refusal> {
        let record = Record::over(bytes);
        record.validate()?;
        let seats = 0..SEATS;
        Ok(Lots {
            record,
            seats,
            reserved_too,
        })
    }
}

impl Iterator for Lots<'_> {
    type Item = (u8, Lot);

    fn next(&mut self) -> Option<(u8, Lot)> {
        let (record, reserved_too) = (&self.record, self.reserved_too);
        self.seats.find_map(|seat| match record.lot(seat) {
            Ok(lot) => (reserved_too || lot.state != State::Reserved).then_some((seat, lot)),
            Err(Refusal::EmptySeat) => None,
            Err(refusal) => panic!("a call on the same bytes was accepted before: {refusal}"),
        })
    }

    fn size_hint(&self) -> (usize, Option<usize>) {
        (0, Some(self.seats.len()))
    }
}

impl FusedIterator for Lots<'_> {}
