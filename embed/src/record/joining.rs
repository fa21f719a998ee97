//! A join, in one step or in two: a reservation, and its confirmation or return.

use super::{accepted, Record};
use crate::refusal::Refusal;
use crate::{sys, NO_SEAT};

impl<B: AsMut<[u8]>> Record<B> {
    /// Seats a lot, staying and without links, and sends its contact a MEET about
    /// it at level 0. Where no lot is seated, whether or not some are reserved, there
    /// is no contact, and nothing is sent.
    ///
    /// It is [`reserve`](Record::reserve) and [`confirm`](Record::confirm) in one
    /// step. `Some(255)` is the same as `None`.
    ///
    /// Refusals: 1 wrong size, 2 unsound, 3 no such seat (also of the contact),
    /// 7 clearing, 4 seat taken, 5 number in use, 6 no contact.
    ///
    /// ```
    /// use lots_record::{Kind, Message, Record, Refusal};
    ///
    /// let mut record = Record::new();
    /// record.join(0, 100, 0, None)?;
    /// record.join(1, 200, 128, Some(0))?;
    /// assert!(record.is_pending(Message::new(Kind::Meet.number(), 0, 1, 0, 0))?);
    /// assert_eq!(record.join(1, 300, 64, Some(0)), Err(Refusal::SeatTaken));
    /// # Ok::<(), Refusal>(())
    /// ```
    #[doc(alias = "lots_join")]
    pub fn join(
        &mut self,
        seat: u8,
        number: u64,
        vector: u8,
        contact: Option<u8>,
    ) -> Result<(), Refusal> {
        let bytes = self.bytes.as_mut();
        let (record, length) = (bytes.as_mut_ptr(), bytes.len());
        let contact = contact.unwrap_or(NO_SEAT);
        // SAFETY: the slice is ours to write for its length.
        accepted(unsafe { sys::lots_join(record, length, seat, number, vector, contact) })
    }

    /// Reserves a seat and a number for a lot, with its vector, and sends nothing.
    ///
    /// The seat and the number are in use from now on, but the lot is not seated: it
    /// has no links, is not counted and is no contact, to leave, to scan from and to
    /// read links its seat is empty, and turns leave it alone. [`lot`](Record::lot)
    /// shows it.
    ///
    /// Refusals: 1 wrong size, 2 unsound, 3 no such seat, 7 clearing, 4 seat taken,
    /// 5 number in use.
    ///
    /// ```
    /// use lots_record::{Record, Refusal, State};
    ///
    /// let mut record = Record::new();
    /// record.reserve(0, 100, 0)?;
    /// assert_eq!(record.lot(0)?.state, State::Reserved);
    /// assert_eq!(record.counts()?.lots, 0);
    /// assert_eq!(record.find(0, 100), Err(Refusal::EmptySeat));
    /// assert_eq!(record.join(0, 200, 0, None), Err(Refusal::SeatTaken));
    /// assert_eq!(record.join(1, 100, 0, None), Err(Refusal::NumberInUse));
    /// # Ok::<(), Refusal>(())
    /// ```
    #[doc(alias = "lots_reserve")]
    pub fn reserve(&mut self, seat: u8, number: u64, vector: u8) -> Result<(), Refusal> {
        let bytes = self.bytes.as_mut();
        let (record, length) = (bytes.as_mut_ptr(), bytes.len());
        // SAFETY: the slice is ours to write for its length.
        accepted(unsafe { sys::lots_reserve(record, length, seat, number, vector) })
    }

    /// Seats the lot that is reserved on a seat, and does the rest of
    /// [`join`](Record::join): the lot is staying, and its contact is sent a MEET
    /// about it at level 0. Where no lot is seated there is no contact, and nothing is
    /// sent.
    ///
    /// `Some(255)` is the same as `None`.
    ///
    /// Refusals: 1 wrong size, 2 unsound, 3 no such seat (also of the contact),
    /// 7 clearing, 14 not reserved, 6 no contact (also its own seat).
    ///
    /// ```
    /// use lots_record::{Kind, Message, Record, Refusal, State};
    ///
    /// let mut record = Record::new();
    /// record.reserve(0, 100, 0)?;
    /// record.reserve(1, 200, 128)?;
    /// record.confirm(0, None)?;
    /// record.confirm(1, Some(0))?;
    /// assert_eq!(record.lot(1)?.state, State::Staying);
    /// assert!(record.is_pending(Message::new(Kind::Meet.number(), 0, 1, 0, 0))?);
    /// assert_eq!(record.confirm(1, Some(0)), Err(Refusal::NotReserved));
    /// # Ok::<(), Refusal>(())
    /// ```
    #[doc(alias = "lots_confirm")]
    pub fn confirm(&mut self, seat: u8, contact: Option<u8>) -> Result<(), Refusal> {
        let bytes = self.bytes.as_mut();
        let (record, length) = (bytes.as_mut_ptr(), bytes.len());
        let contact = contact.unwrap_or(NO_SEAT);
        // SAFETY: the slice is ours to write for its length.
        accepted(unsafe { sys::lots_confirm(record, length, seat, contact) })
    }

    /// Frees the seat and the number of a reserved lot, in either phase and whatever
    /// is pending: its bytes are those of a free seat again.
    ///
    /// Refusals: 1 wrong size, 2 unsound, 3 no such seat, 14 not reserved.
    ///
    /// ```
    /// use lots_record::{Record, Refusal};
    ///
    /// let mut record = Record::new();
    /// record.reserve(5, 100, 0)?;
    /// record.give_back(5)?;
    /// assert_eq!(record, Record::new());
    /// assert_eq!(record.give_back(5), Err(Refusal::NotReserved));
    /// # Ok::<(), Refusal>(())
    /// ```
    #[doc(alias = "lots_give_back")]
    pub fn give_back(&mut self, seat: u8) -> Result<(), Refusal> {
        let bytes = self.bytes.as_mut();
        // SAFETY: the slice is ours to write for its length.
        accepted(unsafe { sys::lots_give_back(bytes.as_mut_ptr(), bytes.len(), seat) })
    }
}
