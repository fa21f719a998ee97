//! Scripts that are the same in every run: lengths, counts and orders that
//! generated ones reach rarely or never. Together they reach every mark.

mod lengths;
mod past_leavers;
mod searches;

use super::Script;
use crate::graph::{BITS, SEATS};
use crate::model::{Message, Model, NO_CONTACT};
use crate::reach::PIECE;
use crate::text;
use lengths::{commands_across_pieces, finished_lines, inputs_of_a_length, unfinished_lines};
use searches::{leavers, searches};

/// Every fixed script, with a name for reports.
pub fn scripts() -> Vec<(String, Script)> {
    let mut scripts = vec![
        named("empty input", Vec::new()),
        named("one newline", newlines(1)),
        named("a piece of newlines", newlines(PIECE)),
        named("more newlines than a piece", newlines(PIECE + 1)),
        named("lines of every length", finished_lines()),
        named("every byte", every_byte()),
        named("every refusal", every_refusal()),
        named("every vector", every_vector()),
        named("one equal vector, ascending", one_list(&ascending())),
        named("one equal vector, descending", one_list(&descending())),
        named("one equal vector, alternating", one_list(&alternating())),
        named("pairs with the widest numbers", pairs()),
        named("more deliveries than a bundle", long_settling(LONGEST)),
        named("as many deliveries as a bundle", long_settling(BUNDLE)),
        named("one delivery more than a bundle", long_settling(BUNDLE + 1)),
        named(
            "largest first",
            drained(|model| model.pending().last().copied()),
        ),
        named(
            "smallest first",
            drained(|model| model.pending().first().copied()),
        ),
        named("filled and emptied", filled_and_emptied()),
        named("twelve clearings", clearings(12)),
        named("leavers and their neighbours", leavers()),
        named("searches at rest and not", searches()),
    ];
    scripts.extend(past_leavers::scripts());
    scripts.extend(unfinished_lines());
    scripts.extend(inputs_of_a_length());
    scripts.extend(commands_across_pieces());
    scripts
}

fn named(name: &str, script: Script) -> (String, Script) {
    (name.to_string(), script)
}

fn newlines(count: usize) -> Script {
    vec![b"\n".to_vec(); count]
}

/// Lines with a model beside them.
struct Lines {
    model: Model,
    script: Script,
}

impl Lines {
    fn new() -> Lines {
        Lines {
            model: Model::open(),
            script: Script::new(),
        }
    }

    fn say(&mut self, line: impl AsRef<[u8]>) {
        let line = line.as_ref();
        text::answer(&mut self.model, text::parse(line));
        self.script.push([line, b"\n"].concat());
    }

    fn say_all(&mut self, lines: &[&str]) {
        lines.iter().for_each(|line| self.say(line));
    }

    fn join(&mut self, seat: usize, number: u64, vector: u8, contact: u8) {
        self.say(format!("J {seat} {number} {vector} {contact}"));
    }

    fn deliver(&mut self, m: Message) {
        self.say(delivery(m));
    }

    /// Fills all seats, each lot at the one before it.
    fn fill(&mut self, number: impl Fn(u64) -> u64, vector: impl Fn(u8) -> u8) {
        for seat in 0..SEATS {
            let contact = seat
                .checked_sub(1)
                .map_or(NO_CONTACT, |before| before as u8);
            self.join(seat, number(seat as u64), vector(seat as u8), contact);
        }
    }

    fn leave_all(&mut self, seats: impl Iterator<Item = u8>) {
        seats.for_each(|seat| self.say(format!("L {seat}")));
    }

    fn search_from_all(&mut self, number: u64) {
        for start in 0..SEATS {
            self.say(format!("F {start} {number}"));
        }
    }
}

fn delivery(m: Message) -> String {
    format!("D {} {} {} {} {}", m.kind, m.to, m.about, m.level, m.side)
}

/// Each byte alone, before a command, inside it and after it.
fn every_byte() -> Script {
    let mut lines = Lines::new();
    for byte in (0..=u8::MAX).filter(|&byte| byte != b'\n') {
        lines.say([byte]);
        lines.say([byte, b'T']);
        lines.say([b'T', byte]);
        lines.say([b'F', byte, b'0', b' ', b'1']);
        lines.say([b'F', b' ', b'0', b' ', b'1', byte]);
    }
    lines.script
}

/// Each refusal of each line, with its neighbour that is not refused.
fn every_refusal() -> Script {
    let mut lines = Lines::new();
    lines.say_all(&[
        "J 0 10 0 0",
        "J 64 10 0 255",
        "J 0 10 0 254",
        "J 63 10 0 255",
    ]);
    lines.say_all(&["J 63 11 0 63", "J 1 10 0 63", "J 1 11 0 2", "J 1 11 0 255"]);
    lines.say_all(&[
        "J 1 11 0 63",
        "T",
        "L 64",
        "L 2",
        "D 1 63 1 0 1",
        "D 8 63 1 0 0",
    ]);
    lines.say_all(&[
        "D 0 63 1 0 0",
        "D 1 63 1 9 0",
        "D 1 63 1 0 0",
        "P",
        "A",
        "P",
    ]);
    lines.say_all(&["F 64 10", "F 2 10", "F 63 10", "L 63", "L 63", "F 63 11"]);
    // A leaving contact is a contact.
    lines.say_all(&["J 2 5 128 63", "P", "F 2 5", "T", "A", "T", "P", "F 63 10"]);
    lines.say_all(&["J 3 7 0 1", "L 1", "T", "T", "A", "T", "P", "J 63 10 0 1"]);
    lines.say_all(&["A", "P"]);
    lines.script
}

/// Four records of 64 lots in which each vector is met once.
fn every_vector() -> Script {
    let mut lines = Lines::new();
    for quarter in 0..4u8 {
        let odd = |seat: u64| seat * 0x1234_5678_9ABC_DEF1 + u64::from(quarter);
        lines.fill(odd, |seat| (seat * 4 + quarter).reverse_bits());
        lines.say_all(&["A", "P"]);
        lines.search_from_all(odd(u64::from(quarter) * 20));
        for seat in 0..SEATS as u64 {
            lines.say(format!("F {quarter} {}", odd(seat)));
        }
        lines.leave_all(0..SEATS as u8);
        lines.say_all(&["T", "A", "T", "P"]);
    }
    lines.script
}

fn ascending() -> Vec<u64> {
    (0..SEATS as u64).map(|n| n * 1_000).collect()
}

fn descending() -> Vec<u64> {
    ascending().into_iter().rev().collect()
}

/// In turn above and below all that came before, and both ends at last.
fn alternating() -> Vec<u64> {
    let middle = 1u64 << 63;
    let far = |step: u64| match step % 2 {
        0 => middle + step,
        _ => middle - step,
    };
    let mut numbers: Vec<u64> = (0..SEATS as u64 - 2).map(far).collect();
    numbers.extend([u64::MAX, 0]);
    numbers
}

/// Lots of one vector that all join at the first, settled by one `A`: in
/// ascending order more than 20,000 deliveries.
fn one_list(numbers: &[u64]) -> Script {
    let mut lines = Lines::new();
    for (seat, &number) in numbers.iter().enumerate() {
        let contact = if seat == 0 { NO_CONTACT } else { 0 };
        lines.join(seat, number, 0b1010_0101, contact);
    }
    lines.say_all(&["P", "A", "P", "A"]);
    for number in [0, 1, u64::MAX, numbers[SEATS / 2]] {
        lines.search_from_all(number);
    }
    lines.script
}

/// The most deliveries that one bundle makes.
const BUNDLE: u64 = u16::MAX as u64;
/// The deliveries that settle the record of [`long_settling`].
const LONGEST: u64 = 65_821;

/// Seat 0 has the largest number, and the eight smallest numbers have one bit set
/// each: many a PULL travels through all other lots. Messages are delivered one by one
/// until `A` has so many deliveries left.
fn long_settling(left: u64) -> Script {
    let mut lines = Lines::new();
    lines.join(0, SEATS as u64, 0, NO_CONTACT);
    for seat in 1..SEATS {
        let vector = match seat {
            1..=BITS => 1 << (BITS - seat),
            _ => 0,
        };
        lines.join(seat, seat as u64, vector, 0);
    }
    for _ in left..LONGEST {
        let smallest = lines.model.pending().first().copied();
        lines.deliver(smallest.expect("so many deliveries are left"));
    }
    lines.say_all(&["P", "A", "P", "A", "P"]);
    lines.search_from_all(SEATS as u64);
    lines.script
}

/// 32 pairs, each with bits of its own from level 5 on, and numbers of twenty
/// digits: the longest answer.
fn pairs() -> Script {
    let mut lines = Lines::new();
    lines.fill(|seat| u64::MAX - seat, |seat| seat / 2 * 8);
    lines.say_all(&["A", "P"]);
    lines.search_from_all(u64::MAX - 31);
    lines.leave_all((0..SEATS as u8).filter(|seat| seat % 3 == 0));
    lines.say_all(&["P", "T", "P", "A", "P", "T", "P"]);
    lines.script
}

/// Joins and a clearing, each drained message by message in one order. Many
/// share all bits, so that every rule is met at every level.
fn drained(next: fn(&Model) -> Option<Message>) -> Script {
    let mut lines = Lines::new();
    for seat in 0..24u8 {
        let contact = if seat == 0 { NO_CONTACT } else { seat / 2 };
        let number = u64::from(seat).reverse_bits();
        let vector = [0, 1, 0, 128][usize::from(seat) % 4];
        lines.join(seat.into(), number, vector, contact);
    }
    lines.drain(next);
    lines.leave_all((0..24).filter(|seat| seat % 3 != 1));
    lines.say("T");
    lines.drain(next);
    lines.say_all(&["T", "P", "F 1 1000"]);
    lines.script
}

impl Lines {
    fn drain(&mut self, next: fn(&Model) -> Option<Message>) {
        self.say("P");
        while let Some(message) = next(&self.model) {
            self.deliver(message);
        }
        self.say_all(&["P", "F 1 1000"]);
    }
}

/// Every seat taken, left and taken again, from the last seat down too.
fn filled_and_emptied() -> Script {
    let mut lines = Lines::new();
    lines.fill(|seat| seat, |seat| seat.reverse_bits());
    lines.say_all(&["A", "P"]);
    lines.leave_all((0..SEATS as u8).rev());
    lines.say_all(&["T", "A", "P", "T", "P", "T", "F 0 0"]);
    for seat in (0..SEATS as u8).rev() {
        let contact = if seat == 63 { NO_CONTACT } else { 63 };
        lines.join(seat.into(), u64::from(seat), !seat, contact);
        lines.say_all(&["A", "P"]);
    }
    lines.search_from_all(31);
    lines.script
}

/// Some of the lots leave, are cleared and come back with the same seats and
/// numbers, again and again.
fn clearings(count: u8) -> Script {
    let mut lines = Lines::new();
    lines.fill(|seat| seat * 10, |seat| seat & 3);
    lines.say("A");
    for turn in 0..count {
        let leaver = |seat: &u8| seat % count == turn || seat % 5 == turn % 5;
        let left: Vec<u8> = (0..SEATS as u8).filter(leaver).collect();
        lines.leave_all(left.iter().copied());
        lines.say_all(&["T", "P"]);
        lines.say_all(&["A", "P", "T", "P"]);
        let contact = (0..SEATS as u8).find(|seat| !left.contains(seat));
        for &seat in &left {
            lines.join(
                seat.into(),
                u64::from(seat) * 10,
                seat & 3,
                contact.unwrap_or(0),
            );
        }
        lines.say_all(&["A", "P"]);
        lines.search_from_all(u64::from(turn) * 53);
    }
    lines.script
}

#[cfg(test)]
mod tests {
    use super::*;
    use crate::{reach, selfcheck};
    use std::collections::BTreeSet;

    #[test]
    fn fixed_scripts_reach_every_mark() {
        let mut marks = BTreeSet::new();
        for (name, script) in scripts() {
            let run = selfcheck::run(&script.concat());
            marks.extend(
                run.unwrap_or_else(|failure| panic!("{name}: {failure:?}"))
                    .marks,
            );
        }
        let left: Vec<_> = reach::all().difference(&marks).copied().collect();
        assert!(left.is_empty(), "not reached: {left:?}");
    }

    #[test]
    fn so_many_deliveries_are_left() {
        for left in [LONGEST, BUNDLE, BUNDLE + 1] {
            let run = selfcheck::run(&long_settling(left).concat()).unwrap();
            assert_eq!(run.deliveries, LONGEST);
            let exactly = run.marks.contains(&reach::Mark::SettledExactly(left));
            assert_eq!(exactly, left != LONGEST);
        }
    }

    #[test]
    fn equal_vectors_in_ascending_order_take_20790_deliveries() {
        let run = selfcheck::run(&one_list(&ascending()).concat()).unwrap();
        assert_eq!(run.deliveries, 20_790);
    }
}
