//! Searches of settled records in which lots are leaving, with their answers as
//! they follow from document 02's words (#104).

use super::Lines;
use crate::graph::SEATS;
use crate::script::Script;

/// A script whose lines are all accepted, and the answers to its searches.
struct Answered {
    lines: Lines,
    answers: Vec<&'static str>,
}

impl Answered {
    fn after(lines: &[&str]) -> Answered {
        let answers = Vec::new();
        let mut start = Lines::new();
        start.say_all(lines);
        Answered {
            lines: start,
            answers,
        }
    }

    /// Some lots leave, then searches with their answers.
    fn leaving(
        mut self,
        seats: impl IntoIterator<Item = u8>,
        searches: &[(&str, &'static str)],
    ) -> Answered {
        self.lines.leave_all(seats.into_iter());
        for (search, answer) in searches {
            self.lines.say(search);
            self.answers.push(answer);
        }
        self
    }
}

/// Every script, with a name for reports.
pub(super) fn scripts() -> Vec<(String, Script)> {
    let mut scripts: Vec<_> = answered()
        .into_iter()
        .map(|(name, answered)| (format!("past leavers, {name}"), answered.lines.script))
        .collect();
    let name = "past leavers, here and there";
    scripts.push((String::from(name), here_and_there()));
    scripts
}

fn answered() -> [(&'static str, Answered); 10] {
    [
        ("one of three", one_of_three()),
        ("two of three", two_of_three()),
        ("the first two of three", first_two_of_three()),
        ("both of two", both_of_two()),
        ("two of six", two_of_six()),
        ("a sole lot", sole_lot()),
        ("the ends of the numbers", ends_of_the_numbers()),
        ("all of a full row but the first", all_but_the_first()),
        ("all of a full row but one", all_but_one()),
        ("all of a full row but the last", all_but_the_last()),
    ]
}

const Q: [&str; 4] = ["J 0 100 0 255", "J 1 200 128 0", "J 2 300 64 0", "A"];

/// 100, 300 and a leaver between them, on the way, as the start, to the left of the
/// walk's end, with the scanned number, and not met at all.
fn one_of_three() -> Answered {
    Answered::after(&Q).leaving(
        [1],
        &[
            ("F 0 250", "holder 0 hops 2"),
            ("F 1 250", "holder 0 hops 1"),
            ("F 2 250", "holder 0 hops 2"),
            ("F 0 200", "holder 0 hops 2"),
            ("F 1 200", "holder 0 hops 1"),
            ("F 2 200", "holder 0 hops 2"),
            ("F 0 199", "holder 0 hops 0"),
            ("F 1 199", "holder 0 hops 1"),
            ("F 2 199", "holder 0 hops 2"),
            ("F 0 300", "holder 2 hops 1"),
            ("F 1 350", "holder 2 hops 1"),
            ("F 0 99", "none hops 0"),
            ("F 1 99", "none hops 1"),
            ("F 2 99", "none hops 1"),
        ],
    )
}

fn two_of_three() -> Answered {
    Answered::after(&Q).leaving(
        [1, 2],
        &[
            ("F 0 350", "holder 0 hops 3"),
            ("F 1 300", "holder 0 hops 3"),
            ("F 2 350", "holder 0 hops 2"),
            ("F 0 250", "holder 0 hops 2"),
            ("F 2 250", "holder 0 hops 2"),
            ("F 0 199", "holder 0 hops 0"),
        ],
    )
}

fn first_two_of_three() -> Answered {
    Answered::after(&Q).leaving(
        [0, 1],
        &[
            ("F 0 250", "none hops 2"),
            ("F 1 250", "none hops 1"),
            ("F 2 250", "none hops 2"),
            ("F 2 150", "none hops 2"),
            ("F 2 100", "none hops 1"),
            ("F 0 350", "holder 2 hops 1"),
            ("F 2 300", "holder 2 hops 0"),
        ],
    )
}

/// The lot on the right leaves, then the other too.
fn both_of_two() -> Answered {
    let right = &[
        ("F 0 250", "holder 0 hops 2"),
        ("F 1 250", "holder 0 hops 1"),
        ("F 1 150", "holder 0 hops 1"),
    ];
    let both = &[
        ("F 0 250", "none hops 2"),
        ("F 1 250", "none hops 1"),
        ("F 0 150", "none hops 0"),
        ("F 1 150", "none hops 1"),
        ("F 0 100", "none hops 0"),
        ("F 1 100", "none hops 1"),
        ("F 0 99", "none hops 0"),
        ("F 1 99", "none hops 1"),
    ];
    let two = Answered::after(&["J 0 100 0 255", "J 1 200 128 0", "A"]);
    two.leaving([1], right).leaving([0], both)
}

/// 10 30 50 and 20 40 60 are lists of all levels above 0, of which 30 and 40 leave.
fn two_of_six() -> Answered {
    let six = Answered::after(&[
        "J 0 10 0 255",
        "J 1 20 128 0",
        "J 2 30 0 0",
        "J 3 40 128 0",
        "J 4 50 0 0",
        "J 5 60 128 0",
        "A",
    ]);
    six.leaving(
        [2, 3],
        &[
            ("F 0 45", "holder 1 hops 4"),
            ("F 5 45", "holder 1 hops 4"),
            ("F 4 49", "holder 1 hops 3"),
            ("F 3 40", "holder 1 hops 2"),
            ("F 1 35", "holder 1 hops 2"),
            ("F 4 50", "holder 4 hops 0"),
            ("F 2 60", "holder 5 hops 2"),
        ],
    )
}

fn sole_lot() -> Answered {
    Answered::after(&["J 5 7 0 255"]).leaving(
        [5],
        &[
            ("F 5 6", "none hops 0"),
            ("F 5 7", "none hops 0"),
            ("F 5 8", "none hops 0"),
        ],
    )
}

/// The largest number leaves, then 0 too.
fn ends_of_the_numbers() -> Answered {
    let largest = &[
        ("F 63 18446744073709551615", "holder 63 hops 2"),
        ("F 0 18446744073709551615", "holder 63 hops 1"),
        ("F 0 18446744073709551614", "holder 63 hops 1"),
        ("F 0 0", "holder 63 hops 1"),
        ("F 63 0", "holder 63 hops 0"),
    ];
    let both = &[
        ("F 63 18446744073709551615", "none hops 2"),
        ("F 0 18446744073709551615", "none hops 1"),
        ("F 63 18446744073709551614", "none hops 0"),
        ("F 0 18446744073709551614", "none hops 1"),
        ("F 0 0", "none hops 1"),
        ("F 63 0", "none hops 0"),
    ];
    let ends = Answered::after(&["J 63 0 0 255", "J 0 18446744073709551615 0 63", "A"]);
    ends.leaving([0], largest).leaving([63], both)
}

const LAST: u8 = SEATS as u8 - 1;

/// 0, 10, 20 and so on up to 630, all of them in one list at each level: a search
/// walks from lot to lot.
fn full_row() -> Answered {
    let mut row = Answered::after(&[]);
    row.lines.fill(|seat| seat * 10, |_| 0);
    row.lines.say("A");
    row
}

/// As many left steps as moves; then the first leaves too.
fn all_but_the_first() -> Answered {
    let first_stays = &[
        ("F 0 1000", "holder 0 hops 126"),
        ("F 63 1000", "holder 0 hops 63"),
        ("F 63 0", "holder 0 hops 63"),
        ("F 32 325", "holder 0 hops 32"),
        ("F 40 325", "holder 0 hops 40"),
        ("F 0 9", "holder 0 hops 0"),
    ];
    let none_stays = &[
        ("F 0 1000", "none hops 126"),
        ("F 63 1000", "none hops 63"),
        ("F 63 9", "none hops 63"),
        ("F 0 9", "none hops 0"),
    ];
    let row = full_row().leaving(1..=LAST, first_stays);
    row.leaving([0], none_stays)
}

fn all_but_one() -> Answered {
    full_row().leaving(
        (0..=LAST).filter(|&seat| seat != 31),
        &[
            ("F 0 630", "holder 31 hops 95"),
            ("F 0 310", "holder 31 hops 31"),
            ("F 0 309", "none hops 60"),
            ("F 63 319", "holder 31 hops 32"),
            ("F 63 321", "holder 31 hops 32"),
            ("F 63 305", "none hops 63"),
        ],
    )
}

fn all_but_the_last() -> Answered {
    full_row().leaving(
        0..LAST,
        &[
            ("F 0 630", "holder 63 hops 63"),
            ("F 0 629", "none hops 124"),
            ("F 63 629", "none hops 63"),
        ],
    )
}

/// All vectors of a full record differ. Lots leave here and there, then their
/// neighbours on the right, then all.
fn here_and_there() -> Script {
    let mut lines = Lines::new();
    lines.fill(|seat| seat * 10, |seat| seat.reverse_bits());
    lines.say("A");
    for part in [1, 2, 0] {
        lines.leave_all((0..=LAST).filter(|seat| seat % 7 % 3 == part));
        for number in [0, 15, 225, 320, 335, 629, u64::MAX] {
            lines.search_from_all(number);
        }
    }
    lines.script
}

#[cfg(test)]
mod tests {
    use super::*;
    use crate::text;

    #[test]
    fn searches_are_answered_so() {
        for (name, Answered { lines, answers }) in answered() {
            let output = String::from_utf8(text::run(&lines.script.concat())).unwrap();
            let found: Vec<&str> = output.lines().filter(|line| *line != "ok").collect();
            assert_eq!(found, answers, "{name}");
        }
    }
}
