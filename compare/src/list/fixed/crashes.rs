//! Lists with crashes, and of several components.

use super::steps::{joined, Steps};
use super::*;
use crate::model::Message;

pub(super) fn lists() -> Vec<(&'static str, Answered)> {
    vec![
        ("crashes refused", refused()),
        ("the middle of three crashes", middle_of_three()),
        ("a crash that cuts nothing", still_one()),
        ("one link at each level", level_by_level()),
        ("everybody crashes", everybody()),
        ("two components", two_components()),
        ("crash after crash", crash_after_crash()),
        ("components are cleared", cleared()),
        ("leaving lots crash", leavers_crash()),
    ]
}

/// 7, then 8, then 11; the set 0 too, where there is nothing to meet 8.
fn refused() -> Answered {
    let mut steps = Steps::new();
    steps.say_all(&[
        (crash([]), OK),
        (crash([0]), no(8)),
        (reserve(3, 250, 64), OK),
        (crash([3]), no(8)),
        (join(0, 100, 0, NO_CONTACT), OK),
        (crash([0, 3]), no(8)),
        (crash([0, 63]), no(8)),
        (join(1, 200, 128, 0), OK),
        (crash([]), no(11)),
        (crash([1]), no(11)),
        (crash([1, 3]), no(8)),
        (crash([9]), no(8)),
        (Call::ReadCounts, gives([2, 0, 1])),
    ]);
    steps.drain();
    steps.say_all(&[
        (leave(1), OK),
        (Call::Turn, OK),
        (crash([]), no(7)),
        (crash([0]), no(7)),
        (crash([9]), no(7)),
    ]);
    steps.drain();
    steps.say_all(&[
        (crash([]), no(7)),
        (crash([1]), no(7)),
        (crash([3]), no(7)),
        (Call::Turn, OK),
        (crash([1]), no(8)),
        (crash([]), OK),
        (lot(3), gives([3, 250, 64])),
        (Call::ReadCounts, gives([1, 0, 0])),
    ]);
    steps.steps
}

/// Equal vectors: 100 and 300 know each other through 200 alone. Each is a component
/// by itself, and a search sees nothing of the other.
fn middle_of_three() -> Answered {
    let mut steps = joined(&[(100, 0), (200, 0), (300, 0)]);
    steps.say_all(&[
        (right_link(0, 8), gives([1])),
        (crash([1]), OK),
        (Call::ReadCounts, gives([2, 0, 0])),
        (lot(1), no(8)),
        (right_link(0, 0), gives([255])),
        (right_link(0, 8), gives([255])),
        (left_link(2, 0), gives([255])),
        (Call::Check, gives([1])),
        (find(0, 350), gives([0, 0])),
        (find(0, 250), gives([0, 0])),
        (find(2, 250), gives([255, 0])),
        (find(2, 350), gives([2, 0])),
        (find(0, 50), gives([255, 0])),
        (Call::Turn, OK),
        // The seat and the number are free again. Whom a newcomer joins is said by its
        // contact, wherever its number lies.
        (join(1, 50, 0, 2), OK),
        (Call::Check, gives([1])),
        (find(2, 99), no(13)),
    ]);
    steps.drain();
    steps.say_all(&[
        (left_link(2, 0), gives([1])),
        (right_link(0, 0), gives([255])),
        (left_link(0, 0), gives([255])),
        (find(2, 250), gives([1, 1])),
        (find(1, 250), gives([1, 0])),
        (find(0, 99), gives([255, 0])),
    ]);
    steps.steps
}

/// In Q 100 and 300 know each other at level 1. Each end of that link hears of the
/// other at level 0.
fn still_one() -> Answered {
    let mut steps = joined(&[(100, 0), (200, 128), (300, 64)]);
    steps.say_all(&[
        (crash([1]), OK),
        (Call::ReadCounts, gives([2, 0, 2])),
        (Call::ReadMessage(Message::meet(0, 2, 0)), gives([1])),
        (Call::ReadMessage(Message::meet(2, 0, 0)), gives([1])),
        (right_link(0, 0), gives([255])),
        (right_link(0, 1), gives([2])),
        (Call::Check, gives([0])),
        (find(0, 350), no(13)),
    ]);
    steps.drain();
    steps.say_all(&[
        (right_link(0, 0), gives([2])),
        (Call::Check, gives([1])),
        (find(0, 350), gives([2, 1])),
    ]);
    steps.steps
}

/// At one level after the other 100 and 300 know each other at that level alone: at
/// those below it 200 lies between, at those above they share too few bits.
fn level_by_level() -> Answered {
    let mut steps = Steps::new();
    for level in 1..=8u8 {
        let bit = |place: u8| 128u8.checked_shr(place.into()).unwrap_or(0);
        steps.say_all(&[
            (join(0, 100, 0, NO_CONTACT), OK),
            (join(1, 200, bit(level - 1), 0), OK),
            (join(2, 300, bit(level), 0), OK),
        ]);
        steps.drain();
        steps.say_all(&[
            (right_link(0, level - 1), gives([1])),
            (right_link(0, level), gives([2])),
            (crash([1]), OK),
            (Call::ReadCounts, gives([2, 0, 2])),
        ]);
        steps.drain();
        steps.say_all(&[
            (right_link(0, 0), gives([2])),
            (find(0, 350), gives([2, 1])),
            (crash([0, 2]), OK),
        ]);
    }
    steps.steps
}

/// Reservations are left, and the next first lot needs no contact.
fn everybody() -> Answered {
    let mut steps = joined(&[(100, 0), (200, 0)]);
    steps.say_all(&[
        (reserve(5, 500, 5), OK),
        (crash([0, 1]), OK),
        (Call::ReadCounts, gives([0, 0, 0])),
        (Call::Check, gives([1])),
        (lot(5), gives([3, 500, 5])),
        (find(0, 100), no(8)),
        (crash([0]), no(8)),
        (join(63, 100, 0, 0), no(6)),
        (join(63, 100, 0, NO_CONTACT), OK),
        (crash([63]), OK),
        (confirm(5, NO_CONTACT), OK),
        (find(5, 500), gives([5, 0])),
    ]);
    steps.steps
}

/// 10 and 20 are cut off from 40 and 50. Links at all levels are left in both, and
/// send, whichever lost somebody.
fn two_components() -> Answered {
    let mut steps = joined(&[(10, 0), (20, 0), (30, 0), (40, 0), (50, 0)]);
    steps.say_all(&[
        (reserve(9, 90, 9), OK),
        (crash([2]), OK),
        (Call::ReadCounts, gives([4, 0, 4])),
        (Call::Check, gives([1])),
        (Call::Bundle { limit: 1 }, gives([1])),
    ]);
    steps.drain();
    steps.say_all(&[
        (Call::Check, gives([1])),
        (find(0, 60), gives([1, 1])),
        (find(3, 60), gives([4, 1])),
        (find(4, 30), gives([255, 1])),
        (find(4, 5), gives([255, 1])),
        // Each of the three newcomers by its contact: 35 to the first, 25 and 90 to the
        // other.
        (join(2, 35, 0, 1), OK),
        (join(5, 25, 128, 4), OK),
        (confirm(9, 3), OK),
        (reserve(6, 60, 0), OK),
        (give_back(6), OK),
    ]);
    steps.drain();
    steps.say_all(&[
        (Call::Check, gives([1])),
        (right_link(1, 0), gives([2])),
        (right_link(2, 0), gives([255])),
        (right_link(5, 0), gives([3])),
        (left_link(5, 0), gives([255])),
        (right_link(4, 0), gives([9])),
        (find(0, 30), gives([1, 1])),
        (find(4, 39), gives([5, 2])),
        (find(9, 36), gives([5, 3])),
        // Lots of both.
        (crash([1, 4]), OK),
    ]);
    steps.drain();
    steps.say_all(&[
        (Call::ReadCounts, gives([5, 0, 0])),
        (Call::Check, gives([1])),
    ]);
    steps.steps
}

/// One component after the other goes: 50, which is alone, all of another, and the
/// end of the last, while the others send and stay as they are.
fn crash_after_crash() -> Answered {
    let lots = [(10, 0), (20, 0), (30, 0), (40, 0), (50, 0), (60, 0)];
    let mut steps = joined(&lots);
    steps.say_all(&[(crash([2]), OK), (crash([3]), no(11))]);
    steps.drain();
    steps.say(crash([4]), OK);
    steps.drain();
    steps.say_all(&[
        (find(3, 70), gives([3, 0])),
        (find(5, 70), gives([5, 0])),
        (find(0, 70), gives([1, 1])),
        // All of a component.
        (crash([3]), OK),
        (Call::ReadCounts, gives([3, 0, 2])),
    ]);
    steps.drain();
    steps.say_all(&[
        (crash([5]), OK),
        (crash([]), no(11)),
        (Call::ReadCounts, gives([2, 0, 2])),
    ]);
    steps.drain();
    steps.say_all(&[
        (crash([]), OK),
        (Call::ReadCounts, gives([2, 0, 0])),
        (crash([0]), OK),
        (Call::ReadCounts, gives([1, 0, 0])),
        (find(1, 70), gives([1, 0])),
    ]);
    steps.steps
}

/// Lots of each of two components leave; then all of one. Each heals by itself.
fn cleared() -> Answered {
    let lots = [
        (10, 0),
        (20, 0),
        (30, 0),
        (40, 0),
        (50, 0),
        (60, 0),
        (70, 0),
    ];
    let mut steps = joined(&lots);
    steps.say(crash([3]), OK);
    steps.drain();
    steps.say_all(&[
        (leave(1), OK),
        (leave(4), OK),
        (find(2, 25), gives([0, 2])),
        (find(6, 55), gives([255, 2])),
        (Call::Turn, OK),
        (Call::Check, gives([0])),
    ]);
    steps.drain();
    steps.say_all(&[
        (Call::Check, gives([1])),
        (crash([0]), no(7)),
        (Call::Turn, OK),
        (right_link(0, 8), gives([2])),
        (left_link(5, 8), gives([255])),
        (find(0, 65), gives([2, 1])),
        (find(6, 45), gives([255, 1])),
        (leave(5), OK),
        (leave(6), OK),
        (find(6, 65), gives([255, 1])),
        (Call::Turn, OK),
    ]);
    steps.drain();
    steps.say_all(&[
        (Call::Turn, OK),
        (Call::ReadCounts, gives([2, 0, 0])),
        (find(0, 65), gives([2, 1])),
    ]);
    steps.steps
}

/// Vectors in which higher levels hold together what level 0 loses. A leaving lot is
/// named, another is left; its turn comes later.
fn leavers_crash() -> Answered {
    let lots = [(10, 0), (20, 128), (30, 1), (40, 129), (50, 0), (60, 128)];
    let mut steps = joined(&lots);
    steps.say_all(&[
        (leave(2), OK),
        (leave(4), OK),
        (crash([1, 2]), OK),
        (lot(2), no(8)),
        (lot(4), gives([2, 50, 0])),
    ]);
    steps.drain();
    steps.say_all(&[
        (Call::Check, gives([1])),
        (find(0, 55), gives([3, 2])),
        (find(0, 35), gives([0, 0])),
        (Call::Turn, OK),
        (Call::ReadCounts, gives([4, 1, 10])),
    ]);
    steps.drain();
    steps.say_all(&[
        (Call::Turn, OK),
        (Call::ReadCounts, gives([3, 0, 0])),
        (find(0, 45), gives([3, 1])),
    ]);
    steps.steps
}
