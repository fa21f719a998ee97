//! Lists in which much else goes on beside reserved lots: deliveries of all messages,
//! clearings.

use super::steps::Steps;
use super::*;

/// Some lots are reserved; then 100, 200 and 300 join on seats 0 to 2.
fn with_reserved(reserved: &[Call]) -> Steps {
    let mut steps = Steps::new();
    reserved.iter().for_each(|&call| steps.say(call, OK));
    steps.say_all(&[
        (join(0, 100, 0, NO_CONTACT), OK),
        (join(1, 200, 128, 0), OK),
        (join(2, 300, 64, 0), OK),
    ]);
    steps
}

/// What the others do does not see a reserved lot: deliveries of all kinds,
/// searches, the check, turns.
pub(super) fn beside_a_graph() -> Answered {
    let mut steps = with_reserved(&[reserve(3, 250, 64)]);
    steps.say_all(&[
        // Nobody has a link yet, then the first lot alone has one.
        (Call::Check, gives([1])),
        (Call::Bundle { limit: 2 }, gives([2])),
        (Call::Check, gives([0])),
    ]);
    steps.drain();
    steps.say_all(&[
        (Call::Check, gives([1])),
        (right_link(0, 1), gives([2])),
        (find(0, 99), gives([255, 0])),
        (find(0, 275), gives([1, 1])),
        (find(3, 275), no(8)),
        (Call::Turn, OK),
        (leave(3), no(8)),
        (leave(1), OK),
        (Call::Turn, OK),
        (Call::ReadCounts, gives([3, 1, 2])),
    ]);
    steps.drain();
    steps.say_all(&[
        (Call::Check, gives([1])),
        (find(3, 275), no(8)),
        (Call::Turn, OK),
        (Call::ReadCounts, gives([2, 0, 0])),
        (lot(3), gives([3, 250, 64])),
        (find(0, 275), gives([0, 0])),
        // Of two lots the first leaves: the second hears that there is none.
        (leave(0), OK),
        (Call::Turn, OK),
    ]);
    steps.drain();
    steps.say_all(&[(Call::Turn, OK), (confirm(3, 2), OK)]);
    steps.drain();
    steps.say(find(3, 400), gives([2, 1]));
    steps.steps
}

/// In phase open and in clearing, with messages pending and without.
pub(super) fn asked_in_each_phase() -> Answered {
    let reserved = [3, 4, 5, 6].map(|seat| reserve(seat, 1_000 + u64::from(seat), seat));
    let mut steps = with_reserved(&reserved);
    steps.ask_in_open(3);
    steps.drain();
    steps.ask_in_open(4);
    steps.drain();
    steps.say_all(&[
        (leave(1), OK),
        (confirm(1, 0), no(14)),
        (give_back(1), no(14)),
        // Through the leaving lot.
        (join(8, 800, 0, 1), OK),
    ]);
    steps.drain();
    steps.say(Call::Turn, OK);
    steps.ask_in_clearing(5);
    steps.drain();
    steps.ask_in_clearing(6);
    steps.steps
}

impl Steps {
    /// Of the lot on a reserved seat, which is confirmed at last; 6 is reserved too.
    fn ask_in_open(&mut self, reserved: u8) {
        self.name_no_seats(reserved);
        self.say_all(&[
            (reserve(1, 200, 0), no(4)),
            (reserve(9, 200, 0), no(5)),
            (confirm(9, 9), no(14)),
            (confirm(1, 9), no(14)),
            (give_back(9), no(14)),
            (give_back(1), no(14)),
            (confirm(reserved, reserved), no(6)),
            (confirm(reserved, 6), no(6)),
            (confirm(reserved, 9), no(6)),
            (confirm(reserved, NO_CONTACT), no(6)),
            (reserve(9, 900, 0), OK),
            (give_back(9), OK),
            (confirm(reserved, 0), OK),
        ]);
    }

    /// The lot on a reserved seat is given back at last; the one on seat 1 leaves.
    fn ask_in_clearing(&mut self, reserved: u8) {
        self.name_no_seats(reserved);
        self.say_all(&[
            (reserve(9, 900, 0), no(7)),
            (reserve(1, 200, 0), no(7)),
            (confirm(reserved, 0), no(7)),
            (confirm(9, 9), no(7)),
            (give_back(9), no(14)),
            (give_back(0), no(14)),
            (give_back(1), no(14)),
            (give_back(reserved), OK),
            (lot(reserved), no(8)),
        ]);
    }

    fn name_no_seats(&mut self, reserved: u8) {
        self.say_all(&[
            (reserve(64, 200, 0), no(3)),
            (confirm(64, 0), no(3)),
            (confirm(reserved, 64), no(3)),
            (confirm(9, 254), no(3)),
            (give_back(64), no(3)),
            (give_back(255), no(3)),
        ]);
    }
}

/// Through a leaving lot, with much done between reserving and confirming; a search
/// then ends at the newcomer.
pub(super) fn join_in_two_steps() -> Answered {
    let mut steps = with_reserved(&[reserve(63, u64::MAX, 255)]);
    steps.drain();
    steps.say_all(&[(leave(1), OK), (confirm(63, 1), OK)]);
    steps.drain();
    steps.say_all(&[
        (right_link(2, 0), gives([63])),
        (right_link(1, 1), gives([63])),
        (find(0, u64::MAX), gives([63, 2])),
        (give_back(63), no(14)),
        (Call::Turn, OK),
    ]);
    steps.drain();
    steps.say_all(&[(Call::Turn, OK), (Call::ReadCounts, gives([3, 0, 0]))]);
    steps.steps
}
