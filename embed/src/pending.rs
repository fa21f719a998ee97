//! The pending messages one after the other.

use crate::reading::Message;
use crate::record::accepted;
use crate::refusal::Refusal;
use crate::sys;
use core::iter::FusedIterator;

/// The smallest pending message that is not smaller than `from`.
pub(crate) fn next_in(bytes: &[u8], from: Message) -> Result<Option<Message>, Refusal> {
    let (record, length) = (bytes.as_ptr(), bytes.len());
    let [kind, to, about, level, side] = from.numbers();
    let mut next = Message::FIRST;
    // SAFETY: the slice is ours to read for its length; the outputs are local.
    accepted(unsafe {
        sys::lots_next_message(
            record,
            length,
            kind,
            to,
            about,
            level,
            side,
            &mut next.kind,
            &mut next.to,
            &mut next.about,
            &mut next.level,
            &mut next.side,
        )
    })?;
    // Kind 0 names no message.
    Ok((next.kind != 0).then_some(next))
}

/// The pending messages of a record, ascending by their five numbers; made by
/// [`Record::pending_messages`](crate::Record::pending_messages).
#[derive(Clone, Debug)]
pub struct PendingMessages<'a> {
    bytes: &'a [u8],
    next: Option<Message>,
}

impl<'a> PendingMessages<'a> {
    pub(crate) fn over(bytes: &'a [u8]) -> Result<Self, Refusal> {
        let next = next_in(bytes, Message::FIRST)?;
        Ok(PendingMessages { bytes, next })
    }
}

impl Iterator for PendingMessages<'_> {
    type Item = Message;

    fn next(&mut self) -> Option<Message> {
        let message = self.next?;
        // The side is the last of the five numbers, so nothing lies between a
        // message and the same numbers with the side one higher; it is 0 or 1.
        let after = Message {
            side: message.side + 1,
            ..message
        };
        let next = next_in(self.bytes, after);
        self.next = next.expect("the bytes are those that the first call accepted");
        Some(message)
    }
}

impl FusedIterator for PendingMessages<'_> {}
