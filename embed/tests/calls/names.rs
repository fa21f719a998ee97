//! The names of the numbers, and that they are those of the header.

use lots_record::{Found, Kind, Message, Phase, Refusal, Side, State};
use lots_record::{LAYOUT_VERSION, LEVELS, SEATS, SIZE};

/// A line for each number that has a word, and one for the others.
fn words(what: &str, word: impl Fn(u8) -> Option<String>) -> String {
    let named = (0..=255).filter_map(|n| Some(format!("{what} {n} {}\n", word(n)?)));
    named.collect::<String>() + &format!("{what} else no such {what}\n")
}

/// A refusal, and 0, which is none.
fn refusal(number: u8) -> Option<String> {
    if number == 0 {
        return Some("accepted".into());
    }
    let refusal = Refusal::from_number(number)?;
    assert_eq!(refusal.number(), number);
    Some(refusal.to_string())
}

fn kind(number: u8) -> Option<String> {
    let kind = Kind::from_number(number)?;
    assert_eq!(kind.number(), number);
    Some(kind.to_string())
}

fn phase(number: u8) -> Option<String> {
    let phase = Phase::from_number(number)?;
    assert_eq!(phase.number(), number);
    Some(phase.to_string())
}

/// The state of a lot, and 0, that of a seat without one.
fn state(number: u8) -> Option<String> {
    if number == 0 {
        return Some("free".into());
    }
    let state = State::from_number(number)?;
    assert_eq!(state.number(), number);
    Some(state.to_string())
}

fn side(number: u8) -> Option<String> {
    let side = Side::from_number(number)?;
    assert_eq!(side.number(), number);
    Some(side.to_string())
}

/// A program in C prints the same from the header: tests/c/names.c.
#[test]
fn names_are_those_of_the_header() {
    let sizes = format!("layout {LAYOUT_VERSION}\nsize {SIZE}\nseats {SEATS}\nlevels {LEVELS}\n");
    let names = [
        sizes,
        "no seat 255\n".into(),
        words("refusal", refusal),
        words("kind", kind),
        words("phase", phase),
        words("state", state),
        words("side", side),
    ];
    assert_eq!(names.concat(), include_str!("../c/names.out"));
}

#[test]
fn any_five_numbers_are_shown() {
    let shown = |numbers: [u8; 5]| {
        let [kind, to, about, level, side] = numbers;
        Message::new(kind, to, about, level, side).to_string()
    };
    assert_eq!(shown([3, 5, 1, 7, 1]), "PULL to 5 about 1 level 7 side 1");
    assert_eq!(shown([7, 63, 0, 8, 0]), "NONE to 63 about 0 level 8 side 0");
    assert_eq!(shown([0, 0, 0, 0, 0]), "kind 0 to 0 about 0 level 0 side 0");
    assert_eq!(
        shown([255; 5]),
        "kind 255 to 255 about 255 level 255 side 255"
    );
}

/// The lines that `lots` prints for a scan.
#[test]
fn a_search_is_shown_as_the_program_prints_it() {
    let shown = |holder, hops| Found { holder, hops }.to_string();
    assert_eq!(shown(Some(63), 126), "holder 63 hops 126");
    assert_eq!(shown(None, u64::MAX), format!("none hops {}", u64::MAX));
}

#[test]
fn words_are_set_in_columns() {
    assert_eq!(format!("{:6}|", Kind::Meet), "MEET  |");
    assert_eq!(format!("{:>9}|", Phase::Clearing), " clearing|");
    assert_eq!(format!("{:9}|", State::Staying), "staying  |");
    assert_eq!(format!("{:6}|", Side::Left), "left  |");
    assert_eq!(format!("{:10}|", Refusal::SameLot), "same lot  |");
}
