//! The command language of the program `lots`: what a line means, and every
//! byte of the answer.

mod calls;

use crate::graph::{self, List};
use crate::model::{Counts, Found, Message, Model, Phase, Refusal};
use std::io::Write;

#[derive(Clone, Copy, PartialEq, Eq, Debug)]
pub enum Command {
    Join {
        seat: u8,
        number: u64,
        vector: u8,
        contact: u8,
    },
    Leave {
        seat: u8,
    },
    Deliver(Message),
    Turn,
    Settle,
    Find {
        start: u8,
        number: u64,
    },
    Print,
}

/// The length of the longest command, `J` with the widest numbers.
pub const LONGEST: usize = "J 255 18446744073709551615 255 255".len();

/// The command of a line without its newline, or none for a bad line.
pub fn parse(line: &[u8]) -> Option<Command> {
    let mut fields = line.split(|&byte| byte == b' ');
    let letter = fields.next()?;
    let fields = &mut fields;
    let command = match letter {
        b"J" => Command::Join {
            seat: narrow(fields.next())?,
            number: wide(fields.next())?,
            vector: narrow(fields.next())?,
            contact: narrow(fields.next())?,
        },
        b"L" => Command::Leave {
            seat: narrow(fields.next())?,
        },
        b"D" => Command::Deliver(Message {
            kind: narrow(fields.next())?,
            to: narrow(fields.next())?,
            about: narrow(fields.next())?,
            level: narrow(fields.next())?,
            side: narrow(fields.next())?,
        }),
        b"T" => Command::Turn,
        b"A" => Command::Settle,
        b"F" => Command::Find {
            start: narrow(fields.next())?,
            number: wide(fields.next())?,
        },
        b"P" => Command::Print,
        _ => return None,
    };
    fields.next().is_none().then_some(command)
}

fn narrow(field: Option<&[u8]>) -> Option<u8> {
    u8::try_from(wide(field)?).ok()
}

/// A decimal number of 64 bits without leading zeros.
fn wide(field: Option<&[u8]>) -> Option<u64> {
    let digits = field?;
    if digits.is_empty() || (digits[0] == b'0' && digits.len() > 1) {
        return None;
    }
    digits.iter().try_fold(0u64, |value, byte| {
        let digit = byte.is_ascii_digit().then(|| u64::from(byte - b'0'))?;
        value.checked_mul(10)?.checked_add(digit)
    })
}

/// What the program answers to one line.
#[derive(Clone, PartialEq, Eq, Debug)]
pub enum Answer {
    Bad,
    Ok,
    No(Refusal),
    Found(Found),
    /// The lists are empty while a message is pending.
    Listing(Counts, Vec<List>),
}

/// Does a command, none standing for a bad line.
pub fn answer(model: &mut Model, command: Option<Command>) -> Answer {
    match command {
        None => Answer::Bad,
        Some(Command::Join {
            seat,
            number,
            vector,
            contact,
        }) => done(model.join(seat, number, vector, contact)),
        Some(Command::Leave { seat }) => done(model.leave(seat)),
        Some(Command::Deliver(message)) => done(model.deliver(message)),
        Some(Command::Turn) => done(model.turn()),
        Some(Command::Settle) => {
            model.settle();
            Answer::Ok
        }
        Some(Command::Find { start, number }) => match model.find(start, number) {
            Ok(found) => Answer::Found(found),
            Err(refusal) => Answer::No(refusal),
        },
        Some(Command::Print) => listing(model),
    }
}

fn done(result: Result<(), Refusal>) -> Answer {
    match result {
        Ok(()) => Answer::Ok,
        Err(refusal) => Answer::No(refusal),
    }
}

fn listing(model: &Model) -> Answer {
    let counts = model.counts();
    let lists = match counts.pending {
        0 => graph::lists(&model.members()),
        _ => Vec::new(),
    };
    Answer::Listing(counts, lists)
}

impl Answer {
    /// Appends the answer's lines.
    pub fn print(&self, out: &mut Vec<u8>) {
        match self {
            Answer::Bad => line(out, format_args!("bad")),
            Answer::Ok => line(out, format_args!("ok")),
            Answer::No(refusal) => line(out, format_args!("no {}", refusal.number())),
            Answer::Found(found) => print_found(found, out),
            Answer::Listing(counts, lists) => {
                print_counts(counts, out);
                lists.iter().for_each(|list| print_list(list, out));
            }
        }
    }
}

fn print_found(found: &Found, out: &mut Vec<u8>) {
    let hops = found.hops;
    match found.holder {
        Some(seat) => line(out, format_args!("holder {seat} hops {hops}")),
        None => line(out, format_args!("none hops {hops}")),
    }
}

fn print_counts(counts: &Counts, out: &mut Vec<u8>) {
    let Counts { lots, pending, .. } = counts;
    let phase = match counts.phase {
        Phase::Open => "open",
        Phase::Clearing => "clearing",
    };
    line(
        out,
        format_args!("lots {lots} phase {phase} pending {pending}"),
    );
}

fn print_list(list: &List, out: &mut Vec<u8>) {
    let List { level, bits, .. } = list;
    let bits = match level {
        0 => String::from("-"),
        _ => format!("{bits:0level$b}"),
    };
    let numbers: Vec<String> = list.numbers.iter().map(u64::to_string).collect();
    let numbers = numbers.join(" ");
    line(out, format_args!("{level} {bits}: {numbers}"));
}

fn line(out: &mut Vec<u8>, text: std::fmt::Arguments) {
    writeln!(out, "{text}").expect("a vector takes every byte");
}

/// The lines of an input; the last may lack its newline.
pub fn lines(input: &[u8]) -> impl Iterator<Item = &[u8]> {
    let pieces = input.split_inclusive(|&byte| byte == b'\n');
    pieces.map(|piece| piece.strip_suffix(b"\n").unwrap_or(piece))
}

/// All that the program writes for an input.
pub fn run(input: &[u8]) -> Vec<u8> {
    let mut program = Program::new();
    let mut out = Vec::new();
    program.read(input, &mut out);
    program.end(&mut out);
    out
}

/// The program over an input that comes in pieces of any size.
pub struct Program {
    model: Model,
    /// The start of the line that has not ended yet. Once longer than any
    /// command the line is bad, whatever follows, so the rest is not kept.
    line: Vec<u8>,
}

impl Default for Program {
    fn default() -> Program {
        Program::new()
    }
}

impl Program {
    pub fn new() -> Program {
        Program {
            model: Model::open(),
            line: Vec::with_capacity(LONGEST + 1),
        }
    }

    /// Takes the next piece of the input and appends the answers to the lines
    /// that end in it.
    pub fn read(&mut self, piece: &[u8], out: &mut Vec<u8>) {
        for part in piece.split_inclusive(|&byte| byte == b'\n') {
            let text = part.strip_suffix(b"\n");
            self.keep(text.unwrap_or(part));
            if text.is_some() {
                self.answer_line(out);
            }
        }
    }

    /// The end of the input: answers a last line that has no newline.
    pub fn end(&mut self, out: &mut Vec<u8>) {
        if !self.line.is_empty() {
            self.answer_line(out);
        }
    }

    fn keep(&mut self, text: &[u8]) {
        let room = LONGEST + 1 - self.line.len();
        self.line.extend_from_slice(&text[..text.len().min(room)]);
    }

    fn answer_line(&mut self, out: &mut Vec<u8>) {
        answer(&mut self.model, parse(&self.line)).print(out);
        self.line.clear();
    }
}

#[cfg(test)]
mod tests {
    use super::*;
    use crate::random::Random;

    #[test]
    fn lines_of_another_form_are_bad() {
        let bad: [&[u8]; 40] = [
            b"",
            b" ",
            b"X",
            b"j 0 1 0 255",
            b"t",
            b"a",
            b"p",
            b"T ",
            b" T",
            b"TT",
            b"T\r",
            b"T\t",
            b"T\0",
            b"\0",
            b"P 0",
            b"A 0",
            b"J",
            b"J 0 1 0",
            b"J 0 1 0 255 0",
            b"J 0 1 0 255 ",
            b"J  0 1 0 255",
            b"J\t0 1 0 255",
            b"J 00 1 0 255",
            b"J 0 01 0 255",
            b"J +0 1 0 255",
            b"J 0 -1 0 255",
            b"J 256 1 0 255",
            b"J 0 1 256 255",
            b"J 0 1 0 256",
            b"J 0 18446744073709551616 0 255",
            b"J 0 999999999999999999999999999999 0 255",
            b"L",
            b"L ",
            b"L 256",
            b"L 0x1",
            b"D 1 0 0 0",
            b"D 256 0 0 0 0",
            b"D 1 0 0 0 0 0",
            b"F 0 ",
            b"F 0 \xef\xbc\x91",
        ];
        for line in bad {
            assert_eq!(parse(line), None, "{}", line.escape_ascii());
            assert_eq!(run(&[line, b"\n"].concat()), b"bad\n");
        }
    }

    #[test]
    fn widest_numbers_are_read() {
        let line = b"J 255 18446744073709551615 255 255";
        assert_eq!(line.len(), LONGEST);
        let widest = Command::Join {
            seat: 255,
            number: u64::MAX,
            vector: 255,
            contact: 255,
        };
        assert_eq!(parse(line), Some(widest));
        let message = Message {
            kind: 255,
            to: 255,
            about: 255,
            level: 255,
            side: 255,
        };
        assert_eq!(
            parse(b"D 255 255 255 255 255"),
            Some(Command::Deliver(message))
        );
    }

    #[test]
    fn ends_of_input() {
        assert_eq!(run(b""), b"");
        assert_eq!(run(b"\n"), b"bad\n");
        assert_eq!(run(b"\n\n"), b"bad\nbad\n");
        assert_eq!(run(b"T"), b"ok\n");
        assert_eq!(run(b"T\n"), b"ok\n");
        assert_eq!(run(b"T\r\n"), b"bad\n");
        assert_eq!(run(b"T\n "), b"ok\nbad\n");
    }

    #[test]
    fn an_overlong_line_is_bad_once() {
        for length in [LONGEST + 1, 4095, 4096, 4097, 100_000] {
            let mut input = vec![b'7'; length];
            input.extend_from_slice(b"\nT\n");
            assert_eq!(run(&input), b"bad\nok\n");
        }
        let mut input = b"J 0 1 0 255".to_vec();
        input.resize(5_000, b' ');
        input.extend_from_slice(b"\nP");
        assert_eq!(run(&input), b"bad\nlots 0 phase open pending 0\n");
    }

    #[test]
    fn pieces_of_the_input_do_not_matter() {
        let mut random = Random::new(3);
        for index in 0..40 {
            let input = crate::script::generate(7, index, 100).concat();
            let (mut program, mut out) = (Program::new(), Vec::new());
            let mut rest = &input[..];
            while !rest.is_empty() {
                let (piece, after) = rest.split_at(rest.len().min(1 + random.below(20)));
                program.read(piece, &mut out);
                rest = after;
            }
            program.end(&mut out);
            assert_eq!(out, run(&input));
        }
    }
}
