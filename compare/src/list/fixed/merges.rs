//! Lists with merges.

use super::steps::{joined, Steps};
use super::*;
use crate::model::Message;

pub(super) fn lists() -> Vec<(&'static str, Answered)> {
    vec![
        ("merges refused", refused()),
        ("two halves find each other", two_halves()),
        ("two halves, the other way", the_other_way()),
        ("numbers between each other", interleaved()),
        ("within one component", within()),
        ("three components in a row", three_in_a_row()),
        ("merges that cross", crossing()),
        ("lots alone", alone()),
        ("leaving lots merge", leavers()),
        ("while others join", while_others_join()),
        ("crash, merge, join, crash", crash_again()),
    ]
}

fn merge(first: u8, second: u8) -> Call {
    Call::Merge { first, second }
}

fn is_pending(to: u8, about: u8) -> Call {
    Call::ReadMessage(Message::meet(to, about, 0))
}

/// 3, then 7, then 8, then 15, each beside what is not refused.
fn refused() -> Answered {
    let mut steps = Steps::new();
    steps.say_all(&[
        (merge(0, 1), no(8)),
        (merge(0, 0), no(8)),
        (merge(64, 64), no(3)),
        (reserve(3, 250, 64), OK),
        (merge(3, 3), no(8)),
        (join(0, 100, 0, NO_CONTACT), OK),
        (merge(0, 0), no(15)),
        (merge(0, 64), no(3)),
        (merge(64, 0), no(3)),
        (merge(255, 9), no(3)),
        (merge(0, 1), no(8)),
        (merge(1, 0), no(8)),
        (merge(0, 3), no(8)),
        (merge(3, 0), no(8)),
        (join(1, 200, 128, 0), OK),
        (merge(1, 1), no(15)),
        (merge(2, 1), no(8)),
        (merge(2, 2), no(8)),
        (merge(1, 128), no(3)),
        (merge(1, 0), OK),
        (Call::ReadCounts, gives([2, 0, 2])),
        // The join told 0 of 1 already.
        (merge(0, 1), OK),
        (Call::ReadCounts, gives([2, 0, 2])),
    ]);
    steps.drain();
    steps.say_all(&[(leave(1), OK), (merge(1, 1), no(15)), (Call::Turn, OK)]);
    for _ in 0..2 {
        // With something pending, then with nothing.
        steps.say_all(&[
            (merge(0, 1), no(7)),
            (merge(0, 0), no(7)),
            (merge(9, 0), no(7)),
            (merge(9, 9), no(7)),
            (merge(3, 0), no(7)),
            (merge(64, 0), no(3)),
            (merge(0, 64), no(3)),
            (merge(64, 64), no(3)),
        ]);
        steps.drain();
    }
    steps.say_all(&[
        (Call::Turn, OK),
        (merge(0, 1), no(8)),
        (merge(0, 0), no(15)),
        (confirm(3, 0), OK),
        (merge(3, 0), OK),
        (Call::ReadCounts, gives([2, 0, 2])),
    ]);
    steps.drain();
    steps.say_all(&[(Call::Check, gives([1])), (find(0, 250), gives([3, 1]))]);
    steps.steps
}

/// 10 and 20 on seats 0 and 1, 40 and 50 on 3 and 4, with equal vectors: two
/// components.
fn halves() -> Steps {
    let mut steps = joined(&[(10, 0), (20, 0), (30, 0), (40, 0), (50, 0)]);
    steps.say(crash([2]), OK);
    steps.drain();
    steps
}

/// The two of [`halves`] are one row of four.
fn are_one() -> [(Call, Answer); 7] {
    [
        (Call::ReadCounts, gives([4, 0, 0])),
        (Call::Check, gives([1])),
        (right_link(1, 0), gives([3])),
        (left_link(3, 0), gives([1])),
        (right_link(1, 8), gives([3])),
        (find(0, 60), gives([4, 3])),
        (find(4, 30), gives([1, 2])),
    ]
}

/// Nothing but the one message is new, and until it is delivered all else waits.
fn two_halves() -> Answered {
    let mut steps = halves();
    steps.say_all(&[
        (find(0, 60), gives([1, 1])),
        (find(4, 30), gives([255, 1])),
        (merge(1, 3), OK),
        (Call::ReadCounts, gives([4, 0, 1])),
        (is_pending(1, 3), gives([1])),
        (is_pending(3, 1), gives([0])),
        (right_link(1, 0), gives([255])),
        (left_link(3, 0), gives([255])),
        (Call::Check, gives([1])),
        (find(0, 60), no(13)),
        (Call::Turn, no(11)),
        (crash([0]), no(11)),
        (crash([]), no(11)),
        (Call::Deliver(Message::meet(3, 1, 0)), no(10)),
        (Call::Deliver(Message::meet(1, 3, 0)), OK),
        (right_link(1, 0), gives([3])),
        (Call::Check, gives([0])),
    ]);
    steps.drain();
    steps.say_all(&are_one());
    steps.steps
}

/// Of lots that come to lie far from each other, by bundles; and in another order.
fn the_other_way() -> Answered {
    let mut steps = halves();
    steps.say_all(&[
        (merge(4, 0), OK),
        (is_pending(4, 0), gives([1])),
        (Call::Bundle { limit: 2 }, gives([2])),
        (crash([1]), no(11)),
    ]);
    steps.drain();
    steps.say_all(&are_one());
    steps.say_all(&[(join(2, 30, 0, 0), OK)]);
    steps.drain();
    steps.say(crash([2]), OK);
    steps.drain();
    steps.say(merge(0, 4), OK);
    steps.drain_from_the_largest();
    steps.say_all(&are_one());
    steps.steps
}

/// 10, 20 and 45 are one component, 15, 40 and 50 the other; level 1 has two lists.
fn interleaved() -> Answered {
    let mut steps = halves();
    steps.say_all(&[(join(2, 45, 128, 1), OK), (join(5, 15, 128, 4), OK)]);
    steps.drain();
    steps.say_all(&[
        (find(0, 45), gives([2, 2])),
        (find(4, 45), gives([3, 1])),
        (find(4, 14), gives([255, 2])),
        (merge(0, 5), OK),
    ]);
    steps.drain();
    steps.say_all(&[
        (Call::Check, gives([1])),
        (right_link(5, 1), gives([2])),
        (right_link(0, 1), gives([1])),
        (right_link(1, 1), gives([3])),
        (right_link(0, 0), gives([5])),
        (find(4, 46), gives([2, 1])),
    ]);
    steps.steps
}

/// The lots know each other: the messages come to nothing, wherever the two lie, and
/// whatever is on its way.
fn within() -> Answered {
    let mut steps = joined(&[(10, 0), (20, 128), (30, 64), (40, 129), (50, 1)]);
    for (first, second) in [(0, 1), (0, 4), (4, 0), (3, 2)] {
        steps.say_all(&[
            (merge(first, second), OK),
            (Call::ReadCounts, gives([5, 0, 1])),
        ]);
        steps.drain();
        steps.say_all(&[(Call::Check, gives([1])), (find(0, 45), gives([3, 2]))]);
    }
    steps.say_all(&[
        (join(5, 25, 0, 0), OK),
        (merge(2, 5), OK),
        (merge(5, 2), OK),
        (merge(4, 1), OK),
        (Call::ReadCounts, gives([6, 0, 4])),
    ]);
    steps.drain();
    steps.say_all(&[(Call::Check, gives([1])), (find(2, 25), gives([5, 1]))]);
    steps.steps
}

/// The middle one is named twice before anything is delivered, then the ends.
fn three_in_a_row() -> Answered {
    let lots = [10, 20, 30, 40, 50, 60, 70, 80].map(|number| (number, 0));
    let mut steps = joined(&lots);
    for gone in [2, 5] {
        steps.say(crash([gone]), OK);
        steps.drain();
    }
    steps.say_all(&[
        (find(0, 90), gives([1, 1])),
        (find(3, 90), gives([4, 1])),
        (merge(1, 3), OK),
        (merge(4, 6), OK),
        (Call::ReadCounts, gives([6, 0, 2])),
        (merge(7, 0), OK),
        (Call::Bundle { limit: 1 }, gives([1])),
    ]);
    steps.drain();
    steps.say_all(&[
        (Call::Check, gives([1])),
        (find(0, 90), gives([7, 5])),
        (find(7, 15), gives([0, 5])),
    ]);
    steps.steps
}

/// From each half to the other, the same once more, and once more the other way.
fn crossing() -> Answered {
    let mut steps = halves();
    steps.say_all(&[
        (merge(0, 4), OK),
        (merge(3, 1), OK),
        (Call::ReadCounts, gives([4, 0, 2])),
        (merge(0, 4), OK),
        (Call::ReadCounts, gives([4, 0, 2])),
        (merge(4, 0), OK),
        (merge(1, 3), OK),
        (Call::ReadCounts, gives([4, 0, 4])),
        (Call::Check, gives([1])),
    ]);
    steps.drain();
    steps.say_all(&are_one());
    steps.steps
}

/// Two lots without a link, on the last seats; then such a one and two others, on the
/// first seat too.
fn alone() -> Answered {
    let mut steps = joined(&[(100, 0), (200, 0), (300, 0)]);
    steps.say_all(&[(join(63, 400, 128, 2), OK), (join(62, 50, 64, 0), OK)]);
    steps.drain();
    steps.say(crash([1]), OK);
    steps.drain();
    steps.say(crash([0, 2]), OK);
    steps.say_all(&[
        (Call::ReadCounts, gives([2, 0, 0])),
        (find(63, 60), gives([255, 0])),
        (merge(63, 62), OK),
    ]);
    steps.drain();
    steps.say_all(&[(find(63, 60), gives([62, 1])), (join(0, 60, 0, 62), OK)]);
    steps.drain();
    steps.say_all(&[
        (find(63, 70), gives([0, 1])),
        (crash([0]), OK),
        (find(63, 70), gives([255, 0])),
        (join(0, 45, 0, 62), OK),
    ]);
    steps.drain();
    steps.say(merge(63, 0), OK);
    steps.drain();
    steps.say(find(63, 46), gives([0, 2]));
    steps.steps
}

/// Leaving lots are named, and take part until the turns that clear them: the two
/// halves are one without them too.
fn leavers() -> Answered {
    let mut steps = halves();
    steps.say_all(&[
        (leave(1), OK),
        (leave(3), OK),
        (merge(1, 3), OK),
        (merge(0, 3), OK),
        (merge(1, 4), OK),
        (lot(1), gives([2, 20, 0])),
        (Call::Turn, no(11)),
    ]);
    steps.drain();
    steps.say_all(&[
        (find(0, 60), gives([4, 3])),
        (find(4, 45), gives([0, 3])),
        (Call::Turn, OK),
        (merge(0, 4), no(7)),
    ]);
    steps.drain();
    steps.say_all(&[
        (Call::Check, gives([1])),
        (Call::Turn, OK),
        (Call::ReadCounts, gives([2, 0, 0])),
        (right_link(0, 8), gives([4])),
        (find(0, 60), gives([4, 1])),
    ]);
    steps.steps
}

/// Newcomers of both halves, a confirmation, returns and a leave beside a merge; what
/// the newcomers have to say is delivered first.
fn while_others_join() -> Answered {
    let mut steps = halves();
    steps.say_all(&[
        (reserve(9, 90, 64), OK),
        (reserve(10, 95, 64), OK),
        (join(2, 45, 128, 1), OK),
        (Call::Bundle { limit: 1 }, gives([1])),
        (merge(0, 4), OK),
        (Call::Check, gives([0])),
        (join(5, 35, 128, 3), OK),
        (confirm(9, 3), OK),
        (merge(9, 2), OK),
        (merge(5, 9), OK),
        (give_back(10), OK),
        (reserve(10, 96, 64), OK),
        (leave(0), OK),
        (crash([2]), no(11)),
        (crash([10]), no(8)),
        (find(2, 45), no(13)),
    ]);
    steps.drain_from_the_largest();
    steps.say_all(&[
        (Call::ReadCounts, gives([7, 0, 0])),
        (Call::Check, gives([1])),
        (right_link(1, 0), gives([5])),
        (right_link(5, 1), gives([2])),
        (find(0, 15), gives([255, 0])),
        (find(9, 47), gives([2, 2])),
        (Call::Turn, OK),
    ]);
    steps.drain();
    steps.say_all(&[
        (Call::Turn, OK),
        (left_link(1, 0), gives([255])),
        (find(9, 19), gives([255, 3])),
    ]);
    steps.steps
}

/// What was merged may be cut again, where it was and elsewhere.
fn crash_again() -> Answered {
    let mut steps = halves();
    steps.say(merge(3, 0), OK);
    steps.drain();
    steps.say(join(2, 30, 0, 4), OK);
    steps.drain();
    steps.say_all(&[(find(0, 60), gives([4, 4])), (crash([2]), OK)]);
    steps.drain();
    steps.say_all(&[
        (find(0, 60), gives([1, 1])),
        (find(4, 30), gives([255, 1])),
        (crash([0, 4]), OK),
        (merge(1, 3), OK),
        (crash([1]), no(11)),
    ]);
    steps.drain();
    steps.say_all(&[
        (find(1, 60), gives([3, 1])),
        (crash([1]), OK),
        (find(3, 60), gives([3, 0])),
        (merge(3, 1), no(8)),
        (merge(3, 3), no(15)),
    ]);
    steps.steps
}
