//! Reads commands from standard input and writes what `lots` must write.

use compare::text::Program;
use std::io::{self, Read, Write};
use std::process::ExitCode;

const PIECE: usize = 1 << 16;

fn main() -> ExitCode {
    match answer(&mut io::stdin().lock(), &mut io::stdout().lock()) {
        Ok(()) => ExitCode::SUCCESS,
        Err(error) => {
            eprintln!("model: {error}");
            ExitCode::FAILURE
        }
    }
}

/// Answers each piece of the input as it comes.
fn answer(input: &mut impl Read, output: &mut impl Write) -> io::Result<()> {
    let mut program = Program::new();
    let mut piece = vec![0; PIECE];
    let mut answers = Vec::new();
    loop {
        let length = match input.read(&mut piece) {
            Err(error) if error.kind() == io::ErrorKind::Interrupted => continue,
            length => length?,
        };
        match length {
            0 => program.end(&mut answers),
            _ => program.read(&piece[..length], &mut answers),
        }
        output.write_all(&answers)?;
        output.flush()?;
        answers.clear();
        if length == 0 {
            return Ok(());
        }
    }
}
