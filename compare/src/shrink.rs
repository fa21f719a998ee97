//! Makes a failing script small.

use crate::script::Script;
use crate::text::{self, Command};

type Fails<'a, T> = &'a mut dyn FnMut(&[T]) -> bool;

/// Drops chunks of half the length, then of a quarter, down to single items,
/// as long as `fails` still holds.
pub fn shrink<T: Clone>(items: &[T], fails: Fails<T>) -> Vec<T> {
    let mut items = items.to_vec();
    let mut chunk = items.len().div_ceil(2);
    while chunk > 0 {
        let dropped = replace_chunks(&mut items, chunk, &[], fails);
        // Single items are tried again as long as one could be dropped.
        if chunk > 1 || !dropped {
            chunk /= 2;
        }
    }
    items
}

/// Tries to replace each chunk, from the end; whether any could be.
fn replace_chunks<T: Clone>(
    items: &mut Vec<T>,
    chunk: usize,
    replacement: &[T],
    fails: Fails<T>,
) -> bool {
    let mut replaced = false;
    let mut end = items.len();
    while end > 0 {
        let start = end.saturating_sub(chunk);
        let tried = [&items[..start], replacement, &items[end..]].concat();
        if tried.len() < items.len() && fails(&tried) {
            *items = tried;
            replaced = true;
        }
        end = start;
    }
    replaced
}

/// Shrinks a script of lines, each with its newline: lines as long as that
/// makes it shorter, then the bytes within each line.
pub fn shrink_script(script: &Script, fails: &mut dyn FnMut(&[u8]) -> bool) -> Script {
    let mut lines_fail = |lines: &[Vec<u8>]| fails(&lines.concat());
    let mut script = shrink(script, &mut lines_fail);
    loop {
        let mut shorter = settle_chunks(&script, &mut lines_fail);
        drop_joins(&mut shorter, &mut lines_fail);
        shorter = shrink(&shorter, &mut lines_fail);
        if shorter.len() == script.len() {
            break;
        }
        script = shorter;
    }
    for index in 0..script.len() {
        let before = script[..index].concat();
        let after = script[index + 1..].concat();
        let mut line_fails = |line: &[u8]| fails(&[&before, line, &after].concat());
        script[index] = shrink(&script[index], &mut line_fails);
    }
    script
}

/// Replaces chunks of lines by one `A`, since a delivery often cannot be
/// dropped for the sake of those that follow from it.
fn settle_chunks(script: &Script, fails: Fails<Vec<u8>>) -> Script {
    let mut script = script.clone();
    let mut chunk = script.len();
    while chunk > 1 {
        replace_chunks(&mut script, chunk, &[b"A\n".to_vec()], fails);
        chunk /= 2;
    }
    script
}

/// Drops joins one by one; those that had the lot as contact get its contact.
fn drop_joins(script: &mut Script, fails: Fails<Vec<u8>>) {
    for index in (0..script.len()).rev() {
        if let Some(tried) = without_join(script, index) {
            if fails(&tried) {
                *script = tried;
            }
        }
    }
}

fn without_join(script: &Script, index: usize) -> Option<Script> {
    let (seat, contact) = match text::parse(trimmed(&script[index])) {
        Some(Command::Join { seat, contact, .. }) => (seat, contact),
        _ => return None,
    };
    let mut without = script.clone();
    without.remove(index);
    for line in &mut without[index..] {
        *line = with_contact(line, seat, contact);
    }
    Some(without)
}

/// A join by the contact `old` becomes one by `new`; other lines stay.
fn with_contact(line: &[u8], old: u8, new: u8) -> Vec<u8> {
    match text::parse(trimmed(line)) {
        Some(Command::Join {
            seat,
            number,
            vector,
            contact,
        }) if contact == old => format!("J {seat} {number} {vector} {new}\n").into_bytes(),
        _ => line.to_vec(),
    }
}

fn trimmed(line: &[u8]) -> &[u8] {
    line.strip_suffix(b"\n").unwrap_or(line)
}

#[cfg(test)]
mod tests {
    use super::*;

    fn lines(script: &str) -> Script {
        let lines = script.as_bytes().split_inclusive(|&byte| byte == b'\n');
        lines.map(<[u8]>::to_vec).collect()
    }

    #[test]
    fn keeps_only_what_fails() {
        let items: Vec<u32> = (0..1000).collect();
        let mut fails = |kept: &[u32]| kept.contains(&17) && kept.contains(&940);
        assert_eq!(shrink(&items, &mut fails), [17, 940]);
    }

    #[test]
    fn shrinks_lines_and_bytes() {
        let mut fails = |input: &[u8]| input.contains(&b'w');
        let shrunk = shrink_script(&lines("one\ntwo two\n3\n"), &mut fails);
        assert_eq!(shrunk, [b"w".to_vec()]);
    }

    #[test]
    fn drops_a_join_that_another_needs_as_contact() {
        let script = lines("J 1 1 0 255\nJ 2 2 0 1\nJ 3 3 0 2\nL 3\nL 3\n");
        let mut fails = |input: &[u8]| text::run(input).ends_with(b"no 9\n");
        let shrunk = shrink_script(&script, &mut fails).concat();
        assert_eq!(shrunk, b"J 3 3 0 255\nL 3\nL 3");
    }

    #[test]
    fn replaces_deliveries_by_settling() {
        let script = lines("J 1 1 0 255\nJ 2 2 128 1\nD 1 1 2 0 0\nD 1 2 1 0 0\nA\nP\n");
        let mut fails = |input: &[u8]| text::run(input).ends_with(b"0 -: 1 2\n");
        let shrunk = shrink_script(&script, &mut fails).concat();
        assert_eq!(shrunk, b"J 1 1 0 255\nJ 2 2 128 1\nA\nP");
    }
}
