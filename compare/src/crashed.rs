//! What calls meet of crashes, and of several components (document 02, #106): told
//! apart by the call, its answer and the record before it.

mod beside;

use crate::before::{Before, Clearing, Pending, FREE, LEAVING, RESERVED};
use crate::call::{Answer, Call};
use crate::graph::{LEVELS, SEATS};
use crate::joined::Joined;
use crate::lent::place::NO_LINK;
use std::collections::BTreeSet;

pub use beside::Beside;

#[derive(Clone, Copy, PartialEq, Eq, PartialOrd, Ord, Debug)]
pub enum Met {
    /// A crash, by its refusal or 0, in phase open or clearing, with something pending
    /// or not.
    Answered(u8, Clearing, Pending),
    /// A crash of nobody, by its refusal or 0.
    OfNobody(u8),
    /// 8 of a set that names seated lots and one in that state.
    EmptySeat(u8),
    Crash(Crash),
    /// An accepted call of a record with several components.
    Beside(Beside),
}

/// An accepted crash of some lots. Components are those before and after it.
#[derive(Clone, Copy, PartialEq, Eq, PartialOrd, Ord, Debug)]
pub enum Crash {
    /// A leaving lot is named, or left.
    Leaver,
    BesideLeaver,
    BesideReserved,
    /// The first seat and the last.
    Seat(u8),
    Everybody,
    /// A component falls into several, or what is left of it is still one.
    Cut,
    StillOne,
    /// All of a component, others are left.
    WholeComponent,
    /// With several components: lots of one, of all of them.
    OfOneOfSeveral,
    OfEach,
    /// One that lost nobody sends.
    UntouchedSends,
    /// Lots are left, and none of them has a link above level 0.
    NothingSent,
    /// A link at this level is left, above level 0.
    LevelLeft(usize),
}

/// All that can be met.
pub fn all() -> BTreeSet<Met> {
    let (open, clearing) = (false, true);
    let answered = [
        (0, open, false),
        (7, clearing, false),
        (7, clearing, true),
        (8, open, false),
        (8, open, true),
        (11, open, true),
    ];
    let answered = answered.map(|(refusal, phase, pending)| Met::Answered(refusal, phase, pending));
    let mut all = BTreeSet::from(answered);
    all.extend([0, 7, 11].map(Met::OfNobody));
    all.extend([FREE, RESERVED].map(Met::EmptySeat));
    let crashes = [
        Crash::Leaver,
        Crash::BesideLeaver,
        Crash::BesideReserved,
        Crash::Seat(0),
        Crash::Seat(LAST),
        Crash::Everybody,
        Crash::Cut,
        Crash::StillOne,
        Crash::WholeComponent,
        Crash::OfOneOfSeveral,
        Crash::OfEach,
        Crash::UntouchedSends,
        Crash::NothingSent,
    ];
    all.extend(crashes.map(Met::Crash));
    all.extend((1..LEVELS).map(|level| Met::Crash(Crash::LevelLeft(level))));
    all.extend(Beside::all().map(Met::Beside));
    all
}

const LAST: u8 = SEATS as u8 - 1;

/// What a call of a sound record met.
pub fn met(call: Call, answer: Answer, record: &[u8]) -> Vec<Met> {
    let before = Before { record };
    match call {
        _ if [1, 2].contains(&answer.refusal) => Vec::new(),
        Call::Crash { seats } => crash(seats, answer.refusal, before),
        _ => {
            let beside = Beside::of(call, answer, before);
            beside.into_iter().map(Met::Beside).collect()
        }
    }
}

fn crash(seats: u64, refusal: u8, before: Before) -> Vec<Met> {
    let answered = Met::Answered(refusal, before.is_clearing(), before.has_pending());
    let mut met = vec![answered];
    let is_named = |seat: &u8| seats >> seat & 1 == 1;
    let named = || (0..SEATS as u8).filter(is_named);
    if seats == 0 {
        met.push(Met::OfNobody(refusal));
    } else if refusal == 0 {
        met.extend(accepted(seats, before).into_iter().map(Met::Crash));
    } else if refusal == 8 && named().any(|seat| before.is_seated(seat)) {
        let mut states = named().map(|seat| before.state(seat));
        let empty = states.find(|state| [FREE, RESERVED].contains(state));
        met.extend(empty.map(Met::EmptySeat));
    }
    met
}

fn accepted(seats: u64, before: Before) -> Vec<Crash> {
    let is_named = |seat: u8| seats >> seat & 1 == 1;
    let components = Joined::of(before, |_| true).components();
    let left = Joined::of(before, |seat| !is_named(seat)).components();
    let lots = |set: u64| before.seated().filter(move |seat| set >> seat & 1 == 1);
    let leaves = |seat: u8| before.state(seat) == LEAVING;
    let mut met = vec![
        (Crash::Leaver, lots(seats).any(leaves)),
        (Crash::BesideLeaver, lots(!seats).any(leaves)),
        (Crash::BesideReserved, before.count(RESERVED) > 0),
        (Crash::Seat(0), is_named(0)),
        (Crash::Seat(LAST), is_named(LAST)),
        (Crash::Everybody, left.is_empty()),
    ];
    let touched = || components.iter().filter(|set| *set & seats != 0);
    let parts = |set: &u64| left.iter().filter(|part| *part & set != 0).count();
    let several = components.len() > 1;
    met.extend([
        (Crash::Cut, touched().any(|set| parts(set) > 1)),
        (Crash::StillOne, touched().any(|set| parts(set) == 1)),
        (
            Crash::WholeComponent,
            touched().any(|set| parts(set) == 0) && !left.is_empty(),
        ),
        (Crash::OfOneOfSeveral, several && touched().count() == 1),
        (
            Crash::OfEach,
            several && touched().count() == components.len(),
        ),
    ]);
    let has_link = |seat: u8, level: usize| {
        let links = &before.links(seat)[2 * level..2 * level + 2];
        links.iter().any(|&link| link != NO_LINK && !is_named(link))
    };
    let sends = |seat: u8| (1..LEVELS).any(|level| has_link(seat, level));
    let untouched = components.iter().filter(|set| *set & seats == 0);
    met.extend([
        (
            Crash::UntouchedSends,
            untouched.copied().any(|set| lots(set).any(sends)),
        ),
        (
            Crash::NothingSent,
            !left.is_empty() && !lots(!seats).any(sends),
        ),
    ]);
    met.extend((1..LEVELS).map(|level| {
        let is_left = lots(!seats).any(|seat| has_link(seat, level));
        (Crash::LevelLeft(level), is_left)
    }));
    let met = met.into_iter().filter(|(_, is_met)| *is_met);
    met.map(|(crash, _)| crash).collect()
}

/// Whether a crash leaves a link above level 0 of which one end knows nothing. No calls
/// lead to such a record.
pub fn leaves_one_sided(record: &[u8], seats: u64) -> bool {
    let before = Before { record };
    let is_left = |seat: u8| seat != NO_LINK && seats >> seat & 1 == 0;
    let mut lots = before.seated().filter(|&seat| is_left(seat));
    lots.any(|seat| {
        let links = before.links(seat).iter().enumerate().skip(2);
        let mut left = links.filter(|(_, &link)| is_left(link));
        // The place of the other side at the same level.
        left.any(|(place, &link)| before.links(link)[place ^ 1] != seat)
    })
}
