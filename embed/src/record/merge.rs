//! Components that find each other.

use super::{accepted, Record};
use crate::refusal::Refusal;
use crate::sys;

impl<B: AsMut<[u8]>> Record<B> {
    /// Lets two components that stand in one record find each other: sends the lot on
    /// the first seat a MEET about the lot on the second at level 0, also while other
    /// messages are pending, and changes nothing else. If that MEET is pending, nothing
    /// changes. Lots that are leaving may be named.
    ///
    /// Once all messages are delivered, the lots of both components are one skip graph,
    /// whichever of their lots were named. Where the two are of one component already,
    /// its links end as they would have without the call.
    ///
    /// Refusals: 1 wrong size, 2 unsound, 3 no such seat (of either), 7 clearing, 8 empty
    /// seat (either is free or reserved), 15 same lot (the two seats are equal).
    ///
    /// ```
    /// use lots_record::{Record, Refusal};
    ///
    /// // Lots 100, 200 and 300 in a row, of which 200 is gone.
    /// let mut record = Record::new();
    /// record.join(0, 100, 0, None)?;
    /// record.join(1, 200, 0, Some(0))?;
    /// record.join(2, 300, 0, Some(0))?;
    /// record.bundle(u16::MAX)?;
    /// record.crash(0b010)?;
    /// assert_eq!(record.find(0, 350)?.holder, Some(0));
    ///
    /// record.merge(0, 2)?;
    /// assert_eq!(record.counts()?.pending, 1);
    /// record.bundle(u16::MAX)?;
    /// assert_eq!(record.find(0, 350)?.holder, Some(2));
    /// assert_eq!(record.merge(0, 0), Err(Refusal::SameLot));
    /// # Ok::<(), Refusal>(())
    /// ```
    #[doc(alias = "lots_merge")]
    pub fn merge(&mut self, first: u8, second: u8) -> Result<(), Refusal> {
        let bytes = self.bytes.as_mut();
        // SAFETY: the slice is ours to write for its length.
        accepted(unsafe { sys::lots_merge(bytes.as_mut_ptr(), bytes.len(), first, second) })
    }
}
