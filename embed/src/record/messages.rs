//! Messages: delivered, one by one or by the bundle, and read.

use super::{accepted, Record};
use crate::pending::{next_in, PendingMessages};
use crate::reading::Message;
use crate::refusal::Refusal;
use crate::sys;

impl<B: AsMut<[u8]>> Record<B> {
    /// Takes a pending message away and does its rule: of the lots it changes at
    /// most the links of `to`, and it may send further messages.
    ///
    /// Refusals: 1 wrong size, 2 unsound, 10 no such message.
    ///
    /// ```
    /// use lots_record::{Kind, Message, Record, Refusal, Side};
    ///
    /// let mut record = Record::new();
    /// record.join(0, 100, 0, None)?;
    /// record.join(1, 200, 128, Some(0))?;
    /// let meet = Message::new(Kind::Meet.number(), 0, 1, 0, 0);
    /// record.deliver(meet)?;
    /// assert_eq!(record.link(0, 0, Side::Right)?, Some(1));
    /// assert_eq!(record.deliver(meet), Err(Refusal::NoSuchMessage));
    /// # Ok::<(), Refusal>(())
    /// ```
    #[doc(alias = "lots_deliver")]
    pub fn deliver(&mut self, message: Message) -> Result<(), Refusal> {
        let bytes = self.bytes.as_mut();
        let (record, length) = (bytes.as_mut_ptr(), bytes.len());
        let [kind, to, about, level, side] = message.numbers();
        // SAFETY: the slice is ours to write for its length.
        accepted(unsafe { sys::lots_deliver(record, length, kind, to, about, level, side) })
    }

    /// Delivers the smallest pending message, by its five numbers in order, again
    /// and again, those just sent included, until none is pending or `limit` of
    /// them are delivered; answers how many.
    ///
    /// They are fewer than `limit` only if none is left. A limit of 0 changes
    /// nothing, and nothing pending is no reason to refuse.
    ///
    /// Refusals: 1 wrong size, 2 unsound.
    ///
    /// ```
    /// use lots_record::{Record, Side};
    ///
    /// let mut record = Record::new();
    /// record.join(0, 100, 0, None)?;
    /// record.join(1, 200, 128, Some(0))?;
    /// assert_eq!(record.bundle(1)?, 1);
    /// assert_eq!(record.link(0, 0, Side::Right)?, Some(1));
    ///
    /// // Lot 100 has sent lot 200 a MEET and a PROBE, and gets both from it.
    /// assert_eq!(record.bundle(50)?, 4);
    /// assert_eq!(record.counts()?.pending, 0);
    /// assert!(record.check()?);
    /// assert_eq!(record.bundle(50)?, 0);
    /// # Ok::<(), lots_record::Refusal>(())
    /// ```
    #[doc(alias = "lots_bundle")]
    pub fn bundle(&mut self, limit: u16) -> Result<u16, Refusal> {
        let bytes = self.bytes.as_mut();
        let (record, length) = (bytes.as_mut_ptr(), bytes.len());
        let mut delivered = 0;
        // SAFETY: the slice is ours to write for its length; the output is local.
        accepted(unsafe { sys::lots_bundle(record, length, limit, &mut delivered) })?;
        Ok(delivered)
    }

    /// Delivers by the [`bundle`](Record::bundle) until none is pending; answers how many
    /// messages were delivered in all.
    ///
    /// Each bundle has the largest limit, and the first that delivers fewer is the last.
    /// It comes to an end on every sound record, whether calls made it or not: no run of
    /// deliveries goes on for ever (`deliveries-end`, docs/STATEMENTS.md).
    ///
    /// Refusals: 1 wrong size, 2 unsound.
    ///
    /// ```
    /// use lots_record::Record;
    ///
    /// let mut record = Record::new();
    /// record.join(0, 100, 0, None)?;
    /// record.join(1, 200, 128, Some(0))?;
    /// assert_eq!(record.deliver_all()?, 5);
    /// assert_eq!(record.counts()?.pending, 0);
    /// assert_eq!(record.deliver_all()?, 0);
    /// # Ok::<(), lots_record::Refusal>(())
    /// ```
    pub fn deliver_all(&mut self) -> Result<u64, Refusal> {
        let mut all = 0;
        loop {
            let delivered = self.bundle(u16::MAX)?;
            all += u64::from(delivered);
            if delivered < u16::MAX {
                return Ok(all);
            }
        }
    }
}

impl<B: AsRef<[u8]>> Record<B> {
    /// Whether five numbers are a pending message.
    ///
    /// Refusals: 1 wrong size, 2 unsound.
    ///
    /// ```
    /// use lots_record::{Kind, Message, Record};
    ///
    /// let mut record = Record::new();
    /// record.join(0, 100, 0, None)?;
    /// record.join(1, 200, 128, Some(0))?;
    /// assert!(record.is_pending(Message::new(Kind::Meet.number(), 0, 1, 0, 0))?);
    /// assert!(!record.is_pending(Message::new(99, 0, 1, 0, 0))?);
    /// # Ok::<(), lots_record::Refusal>(())
    /// ```
    #[doc(alias = "lots_read_message")]
    pub fn is_pending(&self, message: Message) -> Result<bool, Refusal> {
        let bytes = self.as_bytes();
        let (record, length) = (bytes.as_ptr(), bytes.len());
        let [kind, to, about, level, side] = message.numbers();
        let mut pending = 0;
        // SAFETY: the slice is ours to read for its length; the output is local.
        accepted(unsafe {
            sys::lots_read_message(record, length, kind, to, about, level, side, &mut pending)
        })?;
        Ok(pending == 1)
    }

    /// Reads the smallest pending message that is not smaller than `from`, by
    /// their five numbers in order; any five may be given.
    ///
    /// Refusals: 1 wrong size, 2 unsound.
    ///
    /// ```
    /// use lots_record::{Kind, Message, Record};
    ///
    /// let mut record = Record::new();
    /// record.join(0, 100, 0, None)?;
    /// record.join(1, 200, 128, Some(0))?;
    /// let meet = Message::new(Kind::Meet.number(), 0, 1, 0, 0);
    /// assert_eq!(record.next_message(Message::FIRST)?, Some(meet));
    /// assert_eq!(record.next_message(meet)?, Some(meet));
    /// assert_eq!(record.next_message(Message { side: 1, ..meet })?, None);
    /// # Ok::<(), lots_record::Refusal>(())
    /// ```
    #[doc(alias = "lots_next_message")]
    pub fn next_message(&self, from: Message) -> Result<Option<Message>, Refusal> {
        next_in(self.as_bytes(), from)
    }

    /// The pending messages, ascending by their five numbers. Each step is a
    /// [`next_message`](Record::next_message) with its test of the bytes.
    ///
    /// Refusals: 1 wrong size, 2 unsound. The bytes are borrowed meanwhile, so no
    /// refusal can come later.
    ///
    /// ```
    /// use lots_record::Record;
    ///
    /// let mut record = Record::new();
    /// record.join(0, 100, 0, None)?;
    /// record.join(1, 200, 128, Some(0))?;
    /// record.bundle(1)?;
    /// // Lot 100 has met lot 200: it answers with a MEET and a PROBE.
    /// let pending: Vec<String> = record.pending_messages()?.map(|m| m.to_string()).collect();
    /// let meet = "MEET to 1 about 0 level 0 side 0";
    /// let probe = "PROBE to 1 about 0 level 0 side 0";
    /// assert_eq!(pending, [meet, probe]);
    /// # Ok::<(), lots_record::Refusal>(())
    /// ```
    pub fn pending_messages(&self) -> Result<PendingMessages<'_>, Refusal> {
        PendingMessages::over(self.as_bytes())
    }
}
