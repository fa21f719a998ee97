//! Crashes that send, free or refuse otherwise, and checks and searches that take
//! several components for one, or for none.

mod calls;
pub(super) mod components;

use super::on_bytes::*;
use compare::graph::{LEVELS, SIDES};

/// A link that is left, told by the end that holds it.
#[derive(Clone, Copy)]
struct Link {
    holder: u8,
    other: u8,
    level: usize,
}

impl Link {
    /// To each end about the other.
    fn both(self) -> Vec<Message> {
        vec![self.to_holder(), self.to_other()]
    }

    fn to_holder(self) -> Message {
        Message::meet(self.holder, self.other, 0)
    }

    fn to_other(self) -> Message {
        Message::meet(self.other, self.holder, 0)
    }
}

/// All links of a record, at every level.
fn links(record: &[u8]) -> Vec<Link> {
    let mut links = Vec::new();
    for holder in 0..SEATS as u8 {
        for level in 0..LEVELS {
            for side in SIDES {
                let other = record[at(holder) + link_at(level, side as usize)];
                if is_seated(record, holder) && other != NO_LINK {
                    links.push(Link {
                        holder,
                        other,
                        level,
                    });
                }
            }
        }
    }
    links
}

/// The seats of the seated lots.
fn seated(record: &[u8]) -> u64 {
    let seats = (0..SEATS as u8).filter(|&seat| is_seated(record, seat));
    seats.fold(0, |set, seat| set | 1 << seat)
}

/// The seats of an accepted crash of some lots.
fn crashed(call: Call, answer: Answer) -> Option<u64> {
    match call {
        Call::Crash { seats: seats @ 1.. } if answer.refusal == 0 => Some(seats),
        _ => None,
    }
}

/// Sends anew what each link that is left sends.
fn resend(after: &mut [u8], sends: impl Fn(Link) -> Vec<Message>) {
    after[PENDING_AT..].fill(0);
    for message in links(after).into_iter().flat_map(sends) {
        set(after, message);
    }
}

/// What links above level 0 send; those at level 0 nothing.
fn above_level_0(link: Link, sends: impl Fn(Link) -> Vec<Message>) -> Vec<Message> {
    match link.level {
        0 => Vec::new(),
        _ => sends(link),
    }
}
