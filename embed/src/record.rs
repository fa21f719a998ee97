//! The record and its calls.

mod crash;
mod joining;
mod lots;
mod merge;
mod messages;

use crate::reading::{phase, seat_or_none, Counts, Found};
use crate::refusal::Refusal;
use crate::{sys, SIZE};
use core::fmt;

/// A record of lots in the bytes of `B`, owned or borrowed.
///
/// Every call tests the bytes first, so they may be any bytes of any length:
/// what is no sound record is refused. Nothing else is kept here, so a record
/// may be stored and taken up again as its bytes. Two sound records with the
/// same meaning have the same bytes.
#[derive(Clone, PartialEq, Eq)]
pub struct Record<B> {
    bytes: B,
}

impl Record<[u8; SIZE]> {
    /// A record of its own, opened: no lots, phase open, nothing pending.
    ///
    /// It lies where its variable lies. For one on the heap lend a vector of
    /// [`SIZE`] bytes to [`Record::over`], and [open](Record::open) it.
    ///
    /// ```
    /// use lots_record::{Counts, Phase, Record};
    ///
    /// let record = Record::new();
    /// assert_eq!(record.counts(), Ok(Counts { lots: 0, phase: Phase::Open, pending: 0 }));
    /// ```
    pub fn new() -> Self {
        let mut record = Record::over([0; SIZE]);
        record.open().expect("open refuses only a wrong size");
        record
    }
}

impl Default for Record<[u8; SIZE]> {
    fn default() -> Self {
        Record::new()
    }
}

impl<B> Record<B> {
    /// A record over these bytes as they are; none is read or written.
    ///
    /// ```
    /// use lots_record::{Record, Refusal, SIZE};
    ///
    /// let mut memory = vec![0xff; SIZE];
    /// let mut record = Record::over(&mut memory);
    /// assert_eq!(record.counts(), Err(Refusal::Unsound));
    /// record.open()?;
    /// record.join(0, 100, 0, None)?;
    ///
    /// // To read, borrowed bytes are enough.
    /// assert_eq!(Record::over(&memory[..]).lot(0)?.number, 100);
    /// # Ok::<(), Refusal>(())
    /// ```
    pub fn over(bytes: B) -> Self {
        Record { bytes }
    }

    /// Gives the bytes back.
    ///
    /// ```
    /// use lots_record::{Record, SIZE};
    ///
    /// let bytes: [u8; SIZE] = Record::new().into_inner();
    /// assert_eq!(Record::over(bytes), Record::new());
    /// ```
    pub fn into_inner(self) -> B {
        self.bytes
    }
}

impl<B: AsMut<[u8]>> Record<B> {
    /// Writes an empty record in phase open over any bytes.
    ///
    /// Refusals: 1 wrong size.
    ///
    /// ```
    /// use lots_record::{Record, Refusal, SIZE};
    ///
    /// assert_eq!(Record::over(vec![7; SIZE]).open(), Ok(()));
    /// assert_eq!(Record::over(vec![7; 100]).open(), Err(Refusal::WrongSize));
    /// ```
    #[doc(alias = "lots_open")]
    pub fn open(&mut self) -> Result<(), Refusal> {
        let bytes = self.bytes.as_mut();
        // SAFETY: the slice is ours to write for its length.
        accepted(unsafe { sys::lots_open(bytes.as_mut_ptr(), bytes.len()) })
    }

    /// Marks a staying lot as leaving. It goes on taking part until the turns
    /// clear it, but from now on it is the holder of no scan.
    ///
    /// Refusals: 1 wrong size, 2 unsound, 3 no such seat, 7 clearing, 8 empty
    /// seat, 9 already leaving.
    ///
    /// ```
    /// use lots_record::{Record, Refusal, State};
    ///
    /// let mut record = Record::new();
    /// record.join(0, 100, 0, None)?;
    /// record.leave(0)?;
    /// assert_eq!(record.lot(0)?.state, State::Leaving);
    /// assert_eq!(record.leave(0), Err(Refusal::AlreadyLeaving));
    /// # Ok::<(), Refusal>(())
    /// ```
    #[doc(alias = "lots_leave")]
    pub fn leave(&mut self, seat: u8) -> Result<(), Refusal> {
        let bytes = self.bytes.as_mut();
        // SAFETY: the slice is ours to write for its length.
        accepted(unsafe { sys::lots_leave(bytes.as_mut_ptr(), bytes.len(), seat) })
    }

    /// Goes from open to clearing if a lot is leaving, and from clearing to open,
    /// when the leavers' seats become free. Open and without leavers, nothing
    /// changes.
    ///
    /// On the way to clearing every leaver sends GOING to each of its links. Reserved
    /// lots stay as they are.
    ///
    /// Refusals: 1 wrong size, 2 unsound, 11 messages left.
    ///
    /// ```
    /// use lots_record::{Phase, Record};
    ///
    /// let mut record = Record::new();
    /// record.join(0, 100, 0, None)?;
    /// record.leave(0)?;
    /// record.turn()?;
    /// assert_eq!(record.counts()?.phase, Phase::Clearing);
    /// record.turn()?;
    /// assert_eq!(record, Record::new());
    /// # Ok::<(), lots_record::Refusal>(())
    /// ```
    #[doc(alias = "lots_turn")]
    pub fn turn(&mut self) -> Result<(), Refusal> {
        let bytes = self.bytes.as_mut();
        // SAFETY: the slice is ours to write for its length.
        accepted(unsafe { sys::lots_turn(bytes.as_mut_ptr(), bytes.len()) })
    }
}

impl<B: AsRef<[u8]>> Record<B> {
    /// The bytes, as docs/RECORD.md lays them out.
    ///
    /// ```
    /// use lots_record::Record;
    ///
    /// let mut record = Record::new();
    /// record.join(0, 100, 0, None)?;
    /// assert_eq!(record.as_bytes()[1..10], [1, 0, 0, 0, 0, 0, 0, 0, 100]);
    /// # Ok::<(), lots_record::Refusal>(())
    /// ```
    pub fn as_bytes(&self) -> &[u8] {
        self.bytes.as_ref()
    }

    /// Looks up a scanned number from the seated lot on a seat: the holder is the
    /// staying lot with the largest number not above it, of those that links join to
    /// the start directly or through others; none if no staying lot of these has such
    /// a number.
    ///
    /// Every accepted scan gives the right holder. It waits for a settled record:
    /// phase open, nothing pending, and [`check`](Record::check) would say yes.
    /// Lots that are leaving do not make it wait, and it may start from one. Where
    /// it comes to one, it goes on to the left until a lot stays or none is left;
    /// each lot stepped onto is one hop.
    ///
    /// Refusals: 1 wrong size, 2 unsound, 3 no such seat, 8 empty seat, 13
    /// unsettled.
    ///
    /// ```
    /// use lots_record::{Found, Record, Refusal};
    ///
    /// let mut record = Record::new();
    /// record.join(0, 100, 0, None)?;
    /// assert_eq!(record.find(0, 99)?, Found { holder: None, hops: 0 });
    ///
    /// record.join(1, 200, 128, Some(0))?;
    /// assert_eq!(record.find(0, 250), Err(Refusal::Unsettled));
    /// record.bundle(50)?;
    /// assert_eq!(record.find(0, 250)?, Found { holder: Some(1), hops: 1 });
    ///
    /// // 200 may no longer be printed, then nor may 100.
    /// record.leave(1)?;
    /// assert_eq!(record.find(0, 250)?, Found { holder: Some(0), hops: 2 });
    /// record.leave(0)?;
    /// assert_eq!(record.find(0, 250)?, Found { holder: None, hops: 2 });
    /// # Ok::<(), Refusal>(())
    /// ```
    #[doc(alias = "lots_find")]
    pub fn find(&self, start: u8, number: u64) -> Result<Found, Refusal> {
        let bytes = self.as_bytes();
        let (record, length) = (bytes.as_ptr(), bytes.len());
        let (mut holder, mut hops) = (0, 0);
        // SAFETY: the slice is ours to read for its length; the outputs are local.
        accepted(unsafe { sys::lots_find(record, length, start, number, &mut holder, &mut hops) })?;
        let holder = seat_or_none(holder);
        Ok(Found { holder, hops })
    }

    /// Whether every component is the skip graph of its own lots: Constraints 1 to 6
    /// hold. Seated lots, while clearing staying ones, that are joined by links among
    /// them, directly or through others, are a component.
    ///
    /// There may be several components, after a [`crash`](Record::crash), or while a
    /// newcomer has no link yet or a [`merge`](Record::merge) is not delivered: a pending
    /// message is no link.
    ///
    /// Refusals: 1 wrong size, 2 unsound.
    ///
    /// ```
    /// use lots_record::Record;
    ///
    /// let mut record = Record::new();
    /// record.join(0, 100, 0, None)?;
    /// record.join(1, 200, 128, Some(0))?;
    /// assert!(record.check()?);
    /// // Lot 100 knows lot 200, which does not know lot 100 yet.
    /// record.bundle(1)?;
    /// assert!(!record.check()?);
    /// record.bundle(50)?;
    /// assert!(record.check()?);
    /// # Ok::<(), lots_record::Refusal>(())
    /// ```
    #[doc(alias = "lots_check")]
    pub fn check(&self) -> Result<bool, Refusal> {
        let bytes = self.as_bytes();
        let mut yes = 0;
        // SAFETY: the slice is ours to read for its length; the output is local.
        accepted(unsafe { sys::lots_check(bytes.as_ptr(), bytes.len(), &mut yes) })?;
        Ok(yes == 1)
    }

    /// Reads the count of seated lots, which leaves reserved ones out, the phase and
    /// the count of pending messages.
    ///
    /// Refusals: 1 wrong size, 2 unsound.
    ///
    /// ```
    /// use lots_record::{Counts, Phase, Record};
    ///
    /// let mut record = Record::new();
    /// record.join(0, 100, 0, None)?;
    /// record.join(1, 200, 128, Some(0))?;
    /// assert_eq!(record.counts()?, Counts { lots: 2, phase: Phase::Open, pending: 1 });
    /// # Ok::<(), lots_record::Refusal>(())
    /// ```
    #[doc(alias = "lots_read_counts")]
    pub fn counts(&self) -> Result<Counts, Refusal> {
        let bytes = self.as_bytes();
        let (record, length) = (bytes.as_ptr(), bytes.len());
        let (mut lots, mut number, mut pending) = (0, 0, 0);
        // SAFETY: the slice is ours to read for its length; the outputs are local.
        accepted(unsafe {
            sys::lots_read_counts(record, length, &mut lots, &mut number, &mut pending)
        })?;
        let phase = phase(number);
        Ok(Counts {
            lots,
            phase,
            pending,
        })
    }

    /// Whether the bytes are a sound record: the test that stands in front of
    /// every call but [`open`](Record::open).
    ///
    /// Refusals: 1 wrong size, 2 unsound.
    ///
    /// ```
    /// use lots_record::{Record, Refusal, SIZE};
    ///
    /// assert_eq!(Record::new().validate(), Ok(()));
    /// assert_eq!(Record::over([]).validate(), Err(Refusal::WrongSize));
    /// // A free seat has no links, which is 255 and not 0.
    /// assert_eq!(Record::over([0; SIZE]).validate(), Err(Refusal::Unsound));
    /// ```
    #[doc(alias = "lots_validate")]
    #[doc(alias = "refusal")]
    pub fn validate(&self) -> Result<(), Refusal> {
        let bytes = self.as_bytes();
        // SAFETY: the slice is ours to read for its length.
        accepted(unsafe { sys::lots_validate(bytes.as_ptr(), bytes.len()) })
    }
}

/// The counts in place of the bytes, or why they cannot be read.
impl<B: AsRef<[u8]>> fmt::Debug for Record<B> {
    fn fmt(&self, f: &mut fmt::Formatter<'_>) -> fmt::Result {
        f.debug_tuple("Record").field(&self.counts()).finish()
    }
}

/// The library's answer: a refusal number, or 0 for an accepted call.
pub(crate) fn accepted(answer: u8) -> Result<(), Refusal> {
    match (answer, Refusal::from_number(answer)) {
        (0, _) => Ok(()),
        (_, Some(refusal)) => Err(refusal),
        (_, None) => panic!("the library answered with refusal {answer}"),
    }
}

#[cfg(test)]
mod tests {
    use super::*;

    #[test]
    #[should_panic = "refusal 16"]
    fn there_are_fifteen_refusals() {
        let _ = accepted(16);
    }
}
