//! Readings of lots and of their links.

use super::{accepted, Record};
use crate::lots::Lots;
use crate::names::Side;
use crate::reading::{seat_or_none, state, Lot};
use crate::refusal::Refusal;
use crate::sys;

impl<B: AsRef<[u8]>> Record<B> {
    /// Reads the lot on a seat, seated or reserved.
    ///
    /// Refusals: 1 wrong size, 2 unsound, 3 no such seat, 8 empty seat.
    ///
    /// ```
    /// use lots_record::{Lot, Record, Refusal, State};
    ///
    /// let mut record = Record::new();
    /// record.join(63, 100, 64, None)?;
    /// assert_eq!(record.lot(63)?, Lot { state: State::Staying, number: 100, vector: 64 });
    /// assert_eq!(record.lot(0), Err(Refusal::EmptySeat));
    /// # Ok::<(), Refusal>(())
    /// ```
    #[doc(alias = "lots_read_lot")]
    pub fn lot(&self, seat: u8) -> Result<Lot, Refusal> {
        let bytes = self.as_bytes();
        let (record, length) = (bytes.as_ptr(), bytes.len());
        let (mut answer, mut number, mut vector) = (0, 0, 0);
        // SAFETY: the slice is ours to read for its length; the outputs are local.
        accepted(unsafe {
            sys::lots_read_lot(record, length, seat, &mut answer, &mut number, &mut vector)
        })?;
        let state = state(answer);
        Ok(Lot {
            state,
            number,
            vector,
        })
    }

    /// The seated lots, staying and leaving, each with its seat, ascending by seat.
    /// Reserved ones are left out, as in [`counts`](Record::counts). Each step is a
    /// [`lot`](Record::lot), or a few of them, with its test of the bytes.
    ///
    /// Refusals: 1 wrong size, 2 unsound. The bytes are borrowed meanwhile, so no
    /// refusal can come later.
    ///
    /// ```
    /// use lots_record::Record;
    ///
    /// let mut record = Record::new();
    /// record.join(5, 100, 0, None)?;
    /// record.join(2, 200, 128, Some(5))?;
    /// record.reserve(3, 300, 64)?;
    /// let seated: Vec<(u8, u64)> = record.lots()?.map(|(seat, lot)| (seat, lot.number)).collect();
    /// assert_eq!(seated, [(2, 200), (5, 100)]);
    /// # Ok::<(), lots_record::Refusal>(())
    /// ```
    pub fn lots(&self) -> Result<Lots<'_>, Refusal> {
        Lots::over(self.as_bytes(), false)
    }

    /// The lots on all seats that are taken, seated and reserved, each with its seat,
    /// ascending by seat; else as [`lots`](Record::lots). The state tells them apart.
    ///
    /// Refusals: 1 wrong size, 2 unsound.
    ///
    /// ```
    /// use lots_record::{Record, State};
    ///
    /// let mut record = Record::new();
    /// record.join(5, 100, 0, None)?;
    /// record.reserve(3, 300, 64)?;
    /// assert_eq!(record.taken()?.count(), 2);
    /// let mut reserved = record.taken()?.filter(|(_, lot)| lot.state == State::Reserved);
    /// assert_eq!(reserved.next().unwrap().1.number, 300);
    /// assert_eq!(reserved.next(), None);
    /// # Ok::<(), lots_record::Refusal>(())
    /// ```
    pub fn taken(&self) -> Result<Lots<'_>, Refusal> {
        Lots::over(self.as_bytes(), true)
    }

    /// Reads a link of the seated lot on a seat: the neighbour's seat, or none.
    ///
    /// Refusals: 1 wrong size, 2 unsound, 3 no such seat, 12 no such level, 8 empty seat.
    ///
    /// ```
    /// use lots_record::{Record, Refusal, Side};
    ///
    /// let mut record = Record::new();
    /// record.join(0, 100, 0, None)?;
    /// record.join(1, 50, 128, Some(0))?;
    /// record.deliver_all()?;
    /// assert_eq!(record.link(0, 0, Side::Left)?, Some(1));
    /// assert_eq!(record.link(0, 0, Side::Right)?, None);
    /// assert_eq!(record.link(0, 9, Side::Left), Err(Refusal::NoSuchLevel));
    /// # Ok::<(), Refusal>(())
    /// ```
    #[doc(alias = "lots_read_link")]
    pub fn link(&self, seat: u8, level: u8, side: Side) -> Result<Option<u8>, Refusal> {
        let bytes = self.as_bytes();
        let (record, length) = (bytes.as_ptr(), bytes.len());
        let side = side.number();
        let mut link = 0;
        // SAFETY: the slice is ours to read for its length; the output is local.
        accepted(unsafe { sys::lots_read_link(record, length, seat, level, side, &mut link) })?;
        Ok(seat_or_none(link))
    }
}
