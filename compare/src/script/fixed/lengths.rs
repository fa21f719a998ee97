//! Lines and inputs of certain lengths, and commands cut by the end of a piece.

use super::Lines;
use crate::reach::{LENGTHS, PIECE};
use crate::script::Script;

/// A line of some length, all of one byte or a command that goes on with it.
fn long_line(length: usize, start: &[u8], filler: u8) -> Vec<u8> {
    let mut line = start.to_vec();
    line.resize(length, filler);
    line
}

/// A start and what fills the rest: digits, spaces after a command, zeros in
/// front of a number, zero bytes.
const LONG: [(&[u8], u8); 5] = [
    (b"", b'7'),
    (b"J 0 1 0 255", b' '),
    (b"L ", b'0'),
    (b"T", 0),
    (b"F 0 1", b'1'),
];

pub(super) fn finished_lines() -> Script {
    let mut lines = Lines::new();
    lines.say("J 0 1 0 255");
    for length in LENGTHS {
        for (start, filler) in LONG {
            lines.say(long_line(length, start, filler));
            lines.say("F 0 1");
        }
    }
    lines.say("P");
    lines.script
}

/// Scripts that end in a long line without its newline, and in each command.
pub(super) fn unfinished_lines() -> Vec<(String, Script)> {
    let start = b"J 0 1 0 255\n".to_vec();
    let mut scripts = Vec::new();
    for length in LENGTHS {
        for (begin, filler) in LONG {
            let script = vec![start.clone(), long_line(length, begin, filler)];
            scripts.push((format!("an unfinished line of {length} bytes"), script));
        }
    }
    let commands = ["J 1 2 0 0", "L 0", "D 1 0 1 0 0", "T", "A", "F 0 1", "P"];
    for command in commands {
        let mut script = vec![start.clone(), b"J 1 2 0 0\n".to_vec()];
        match command.as_bytes()[0] {
            b'J' => drop(script.pop()),
            b'F' => script.push(b"A\n".to_vec()),
            _ => {}
        }
        script.push(command.as_bytes().to_vec());
        scripts.push((format!("unfinished `{command}`"), script));
    }
    scripts
}

/// Inputs of exactly a piece, of two, and of a byte less and more; the last
/// line with its newline and without it.
pub(super) fn inputs_of_a_length() -> Vec<(String, Script)> {
    let mut scripts = Vec::new();
    for length in [
        1,
        PIECE - 1,
        PIECE,
        PIECE + 1,
        2 * PIECE - 1,
        2 * PIECE,
        2 * PIECE + 1,
    ] {
        for last in ["P", "P\n", "bad\n"] {
            let name = format!("an input of {length} bytes that ends in {last:?}");
            scripts.push((name, before(length.saturating_sub(last.len()), last)));
        }
    }
    scripts
}

/// Some bytes of lines, then the given bytes.
fn before(length: usize, last: &str) -> Script {
    let mut script = vec![b"T\n".to_vec(); length / 2];
    if length % 2 == 1 {
        script.push(b"\n".to_vec());
    }
    script.push(last.as_bytes().to_vec());
    script
}

/// Each command, cut by the end of a piece at each of its bytes.
pub(super) fn commands_across_pieces() -> Vec<(String, Script)> {
    let mut scripts = Vec::new();
    let commands = [
        "J 7 1234567890 255 0",
        "L 0",
        "D 1 0 1 0 0",
        "F 0 200",
        "T",
        "A",
        "P",
    ];
    for command in commands {
        for cut in 0..=command.len() {
            let start = match command.as_bytes()[0] {
                b'F' => "J 0 100 0 255\nJ 1 200 0 0\nA\n",
                _ => "J 0 100 0 255\nJ 1 200 0 0\n",
            };
            let rest = format!("{command}\nA\nP\n");
            let mut script = before(PIECE - cut - start.len(), "");
            script.extend([start.as_bytes().to_vec(), rest.into_bytes()]);
            scripts.push((format!("`{command}` cut after {cut} bytes"), script));
        }
    }
    scripts
}
