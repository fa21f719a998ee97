//! Searches of records at rest and not, and while lots leave.

use super::{delivery, Lines};
use crate::model::{Phase, State, NO_CONTACT};
use crate::script::Script;

/// Searches and joins while lots leave and messages are pending.
pub(super) fn leavers() -> Script {
    let mut lines = Lines::new();
    for seat in 0..8u8 {
        let contact = if seat == 0 { NO_CONTACT } else { 0 };
        lines.join(seat.into(), u64::from(seat) * 3, seat << 5, contact);
        lines.say_all(&["P", "F 0 21"]);
    }
    lines.leave_all([2, 3, 5].into_iter());
    // A join at a leaver, which goes on taking part.
    lines.say_all(&[
        "J 9 10 7 3",
        "F 3 10",
        "A",
        "P",
        "F 5 22",
        "T",
        "P",
        "F 3 9",
    ]);
    while let Some(&message) = lines.model.pending().iter().next() {
        lines.deliver(message);
        lines.say_all(&["F 0 9", "F 3 9", "P"]);
    }
    debug_assert_eq!(lines.model.phase(), Phase::Clearing);
    debug_assert!(lines
        .model
        .seated()
        .any(|(_, lot)| lot.state == State::Leaving));
    lines.say_all(&["T", "P", "F 0 9", "J 3 9 96 9", "A", "P"]);
    lines.search_from_all(10);
    lines.script
}

/// After each line, searches from a lot that finds a holder and one that finds
/// none, from a free seat and from no seat: in either phase, with messages pending
/// and without, and in phase open with a leaver.
pub(super) fn searches() -> Script {
    let mut lines = Lines::new();
    lines.say_searching("T");
    for join in ["J 0 100 0 255", "J 1 200 128 0", "J 2 300 64 0"] {
        lines.say_searching(join);
    }
    lines.drain_searching();
    for line in ["L 1", "T"] {
        lines.say_searching(line);
    }
    lines.drain_searching();
    lines.say_searching("T");
    lines.script
}

impl Lines {
    fn say_searching(&mut self, line: &str) {
        self.say_all(&[line, "F 0 250", "F 2 99", "F 9 250", "F 64 250"]);
    }

    fn drain_searching(&mut self) {
        while let Some(&m) = self.model.pending().first() {
            self.say_searching(&delivery(m));
        }
    }
}
