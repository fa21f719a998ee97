//! Runs a program on an input and takes its output.

use std::io::{self, Read, Write};
use std::path::Path;
use std::process::{Child, Command, Stdio};
use std::sync::mpsc;
use std::thread::{self, JoinHandle};
use std::time::Duration;

/// How a program ended.
#[derive(Clone, PartialEq, Eq, Debug)]
pub enum End {
    Success,
    /// Another exit status, or a signal.
    Failure(String),
    /// It was stopped at the time limit.
    TimeLimit,
}

#[derive(Clone, PartialEq, Eq, Debug)]
pub struct Output {
    pub bytes: Vec<u8>,
    pub end: End,
}

/// A program at work.
pub struct Running {
    child: Child,
    writer: JoinHandle<()>,
    output: mpsc::Receiver<io::Result<Vec<u8>>>,
}

impl Running {
    /// Starts the program; what it writes to standard error is not kept.
    pub fn start(path: &Path, input: &[u8]) -> io::Result<Running> {
        let mut child = Command::new(path)
            .stdin(Stdio::piped())
            .stdout(Stdio::piped())
            .stderr(Stdio::null())
            .spawn()?;
        let mut stdin = child.stdin.take().expect("stdin is piped");
        let mut stdout = child.stdout.take().expect("stdout is piped");
        let input = input.to_vec();
        // A program that stops reading too early shows it in its output.
        let writer = thread::spawn(move || drop(stdin.write_all(&input)));
        let (sender, output) = mpsc::channel();
        thread::spawn(move || {
            let mut bytes = Vec::new();
            let read = stdout.read_to_end(&mut bytes).map(|_| bytes);
            drop(sender.send(read));
        });
        Ok(Running {
            child,
            writer,
            output,
        })
    }

    /// Waits for the end of the output, at most for the time limit.
    pub fn finish(mut self, limit: Duration) -> io::Result<Output> {
        let Ok(bytes) = self.output.recv_timeout(limit) else {
            self.child.kill()?;
            self.child.wait()?;
            return Ok(Output {
                bytes: Vec::new(),
                end: End::TimeLimit,
            });
        };
        let status = self.child.wait()?;
        drop(self.writer.join());
        let end = match status.success() {
            true => End::Success,
            false => End::Failure(status.to_string()),
        };
        Ok(Output { bytes: bytes?, end })
    }
}

/// Runs the program to its end.
pub fn run(path: &Path, input: &[u8], limit: Duration) -> io::Result<Output> {
    Running::start(path, input)?.finish(limit)
}
