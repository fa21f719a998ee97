//! Lots that are gone without having left.

use super::{accepted, Record};
use crate::refusal::Refusal;
use crate::sys;

impl<B: AsMut<[u8]>> Record<B> {
    /// Takes lots out that are gone without having left. The named seats become free,
    /// and links to them none; then every link at levels 1 to 8 that is left, in
    /// components that lost nobody too, sends MEET at level 0, to each end about the
    /// other.
    ///
    /// `seats` is a set, whose lowest bit is seat 0 and highest is seat 63. Lots that
    /// are leaving may be named. The set 0 changes nothing, but meets 7 and 11 as any
    /// other.
    ///
    /// Once all messages are delivered, the lots that are still joined by links,
    /// directly or through others, are one skip graph again. Those that are not are
    /// several, each for itself: [`check`](Record::check) says yes, and
    /// [`find`](Record::find) answers for the lots of its own.
    ///
    /// Refusals: 1 wrong size, 2 unsound, 7 clearing, 8 empty seat (a named one is free
    /// or reserved), 11 messages left.
    ///
    /// ```
    /// use lots_record::{Record, Refusal};
    ///
    /// // Lots 100, 200 and 300 in a row: nothing but 200 joins the other two.
    /// let mut record = Record::new();
    /// record.join(0, 100, 0, None)?;
    /// record.join(1, 200, 0, Some(0))?;
    /// record.join(2, 300, 0, Some(0))?;
    /// assert_eq!(record.crash(0b010), Err(Refusal::MessagesLeft));
    /// record.bundle(u16::MAX)?;
    /// record.crash(0b010)?;
    ///
    /// assert_eq!(record.lot(1), Err(Refusal::EmptySeat));
    /// assert!(record.check()?);
    /// assert_eq!(record.find(0, 350)?.holder, Some(0));
    /// assert_eq!(record.find(2, 250)?.holder, None);
    /// # Ok::<(), Refusal>(())
    /// ```
    #[doc(alias = "lots_crash")]
    pub fn crash(&mut self, seats: u64) -> Result<(), Refusal> {
        let bytes = self.bytes.as_mut();
        // SAFETY: the slice is ours to write for its length.
        accepted(unsafe { sys::lots_crash(bytes.as_mut_ptr(), bytes.len(), seats) })
    }
}
