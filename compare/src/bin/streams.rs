//! Tests a program's standard input and output: an answer is one write, after a
//! write or a read that fails nothing more is written or carried out, and the
//! program ends with status 1 and says so on standard error. What arrives is then
//! a beginning of the right output, which the model gives.

use compare::text;
use std::fs::{File, OpenOptions};
use std::io::{self, PipeReader, PipeWriter, Read, Write};
use std::os::fd::{AsRawFd, OwnedFd, RawFd};
use std::os::unix::net::{UnixDatagram, UnixStream};
use std::path::{Path, PathBuf};
use std::process::{Child, Command, ExitCode, Stdio};
use std::thread;
use std::time::{Duration, Instant};

const USAGE: &str = "usage: streams --program PATH";

/// A program that has not ended by then is stopped, and the test has failed.
const TIME_LIMIT: Duration = Duration::from_secs(20);
/// A reader that has got nothing for so long gives up.
const PATIENCE: Duration = Duration::from_secs(10);
/// Between two looks at whether a program has ended.
const LOOK: Duration = Duration::from_millis(2);

const WRITE_FAILED: &str = "lots: write failed\n";
const READ_FAILED: &str = "lots: read failed\n";

type Done = Result<(), String>;
type Test = fn(&Path) -> Result<Done, io::Error>;

const TESTS: [(&str, Test); 8] = [
    ("an answer is one write", one_write),
    ("a slow reader on a non-blocking pipe", slow_reader),
    ("no reader on a non-blocking pipe", no_reader),
    ("a full device", full_device),
    ("a reader that closes early", early_close),
    ("standard output closed", closed_output),
    ("input from a folder", folder),
    ("a read that fails in a line", failed_read_in_a_line),
];

fn main() -> ExitCode {
    let arguments: Vec<String> = std::env::args().skip(1).collect();
    let [option, program] = &arguments[..] else {
        eprintln!("{USAGE}");
        return ExitCode::from(2);
    };
    if option != "--program" {
        eprintln!("{USAGE}");
        return ExitCode::from(2);
    }
    let program = PathBuf::from(program);
    let mut failed = 0;
    for (name, test) in TESTS {
        let done = test(&program).unwrap_or_else(|error| Err(error.to_string()));
        match done {
            Ok(()) => println!("{name}: passed"),
            Err(what) => {
                println!("{name}: FAILED: {what}");
                failed += 1;
            }
        }
    }
    println!("{} passed, {failed} failed", TESTS.len() - failed);
    ExitCode::from(u8::from(failed > 0))
}

fn holds(condition: bool, what: impl Into<String>) -> Done {
    condition.then_some(()).ok_or_else(|| what.into())
}

/// A settled record of some lots with wide numbers, then questions about it:
/// answers from 3 bytes to 13 thousand, many of each.
fn questions(lots: u64, rounds: u64) -> Vec<u8> {
    let mut script = String::from("X\nL 0\n");
    for seat in 0..lots {
        let contact = if seat == 0 { 255 } else { seat - 1 };
        let number = u64::MAX - (seat * 7919) % 1000;
        script += &format!("J {seat} {number} {} {contact}\nA\n", seat / 2 * 8);
    }
    for round in 0..rounds {
        let number = u64::MAX - round % 1000;
        script += &format!("P\nF {} {number}\nT\nF 0 {round}\nL 64\n", round % lots);
    }
    script.into_bytes()
}

/// The answers of a script, line by line.
fn answers(script: &[u8]) -> Vec<Vec<u8>> {
    let mut program = text::Program::new();
    let answer = |line: &[u8]| {
        let mut out = Vec::new();
        program.read(line, &mut out);
        out
    };
    script
        .split_inclusive(|&byte| byte == b'\n')
        .map(answer)
        .collect()
}

/// A program on its own, with its standard input held open after the script.
struct Run {
    child: Child,
    /// Written by a thread, which then keeps it: input does not end.
    _input: thread::JoinHandle<Option<PipeWriter>>,
    errors: thread::JoinHandle<String>,
}

impl Run {
    fn start(mut command: Command, script: &[u8], output: Stdio) -> io::Result<Run> {
        let (stdin, mut input) = io::pipe()?;
        let (mut from_errors, errors) = io::pipe()?;
        let child = command.stdin(stdin).stdout(output).stderr(errors).spawn()?;
        // The command holds the ends that it handed to the child.
        drop(command);
        let script = script.to_vec();
        let write = move || input.write_all(&script).is_ok().then_some(input);
        let read = move || {
            let mut text = String::new();
            drop(from_errors.read_to_string(&mut text));
            text
        };
        Ok(Run {
            child,
            _input: thread::spawn(write),
            errors: thread::spawn(read),
        })
    }

    /// Waits for the program to end, which it must though its input goes on, with
    /// status 1; gives what it wrote to standard error.
    fn end(mut self) -> io::Result<Result<String, String>> {
        let start = Instant::now();
        let status = loop {
            if let Some(status) = self.child.try_wait()? {
                break status;
            }
            if start.elapsed() > TIME_LIMIT {
                self.child.kill()?;
                self.child.wait()?;
                return Ok(Err(String::from("the program went on")));
            }
            thread::sleep(LOOK);
        };
        let errors = self.errors.join().unwrap_or_default();
        Ok(holds(status.code() == Some(1), status.to_string()).map(|()| errors))
    }
}

/// What a program wrote before it ended is a beginning of the right output, with
/// the message if and only if something is missing.
fn is_beginning(arrived: &[u8], errors: &str, expected: &[u8]) -> Done {
    let difference = difference(arrived, expected);
    holds(expected.starts_with(arrived), difference)?;
    let message = if arrived.len() < expected.len() {
        WRITE_FAILED
    } else {
        ""
    };
    holds(errors == message, format!("standard error has {errors:?}"))
}

fn difference(arrived: &[u8], expected: &[u8]) -> String {
    let same = arrived
        .iter()
        .zip(expected)
        .take_while(|(a, b)| a == b)
        .count();
    let from = same.saturating_sub(20);
    let part = |bytes: &[u8]| {
        bytes[from..bytes.len().min(same + 20)]
            .escape_ascii()
            .to_string()
    };
    format!("at byte {same} {} for {}", part(arrived), part(expected))
}

extern "C" {
    /// POSIX's fcntl, of the C library that Rust's own stands on.
    fn fcntl(fd: RawFd, command: i32, argument: i32) -> i32;
}

/// Linux's numbers.
const F_SETFL: i32 = 4;
const F_SETPIPE_SZ: i32 = 1031;
const O_NONBLOCK: i32 = 0o4000;

fn set(fd: &impl AsRawFd, command: i32, argument: i32) -> io::Result<()> {
    // SAFETY: neither command reads or writes memory of this process.
    match unsafe { fcntl(fd.as_raw_fd(), command, argument) } {
        -1 => Err(io::Error::last_os_error()),
        _ => Ok(()),
    }
}

/// A pipe of some capacity for a program's output, which does not wait for its
/// reader if it is non-blocking.
fn output_pipe(capacity: i32, non_blocking: bool) -> io::Result<(PipeReader, PipeWriter)> {
    let (reader, writer) = io::pipe()?;
    set(&writer, F_SETPIPE_SZ, capacity)?;
    if non_blocking {
        set(&writer, F_SETFL, O_NONBLOCK)?;
    }
    Ok((reader, writer))
}

/// Reads a little at a time, with pauses: to the end, to some length, or until
/// nothing has come for long.
fn read_slowly(reader: &mut PipeReader, pause: Duration, most: usize) -> io::Result<Vec<u8>> {
    set(reader, F_SETFL, O_NONBLOCK)?;
    let mut arrived = Vec::new();
    let mut part = [0; 700];
    let mut last = Instant::now();
    while arrived.len() < most && last.elapsed() < PATIENCE {
        thread::sleep(pause);
        match reader.read(&mut part) {
            Ok(0) => break,
            Ok(count) => {
                arrived.extend_from_slice(&part[..count]);
                last = Instant::now();
            }
            Err(error) if error.kind() == io::ErrorKind::WouldBlock => thread::sleep(LOOK),
            Err(error) => return Err(error),
        }
    }
    Ok(arrived)
}

/// Each message that a socket of datagrams gets is one write.
fn one_write(program: &Path) -> io::Result<Done> {
    let script = questions(64, 30);
    let (ours, theirs) = UnixDatagram::pair()?;
    ours.set_read_timeout(Some(PATIENCE))?;
    let output = Stdio::from(OwnedFd::from(theirs));
    let run = Run::start(Command::new(program), &script, output)?;
    let expected = answers(&script);
    let mut message = vec![0; 1 << 16];
    for (index, answer) in expected.iter().enumerate() {
        let length = match ours.recv(&mut message) {
            Ok(length) => length,
            Err(error) => return Ok(Err(format!("answer {index}: {error}"))),
        };
        let line = || format!("answer {index} is not one write");
        if let failure @ Err(_) = holds(message[..length] == answer[..], line()) {
            return Ok(failure);
        }
    }
    let longest = expected.iter().map(Vec::len).max().unwrap_or(0);
    // The program waits for more input, and is stopped.
    let Run { mut child, .. } = run;
    child.kill()?;
    child.wait()?;
    Ok(holds(longest > 13_000, "no long answer was asked for"))
}

/// A blocking pipe makes the program wait, and everything arrives; on others
/// the reader is too slow at least now and then.
fn slow_reader(program: &Path) -> io::Result<Done> {
    let mut cut = 0;
    for trial in 0..TRIALS {
        let lots = [3, 20, 64][trial % 3];
        let rounds = [200, 1_000, 4_000][trial / 3 % 3];
        let capacity = [4096, 65536][trial % 2];
        let pause = Duration::from_micros(50 * trial as u64);
        let what = format!("{lots} lots, {rounds} rounds, pipe of {capacity}");
        match slow_trial(
            program,
            &questions(lots, rounds),
            capacity,
            trial > 0,
            pause,
        )? {
            Err(failure) => return Ok(Err(format!("{what}: {failure}"))),
            Ok(is_cut) => cut += usize::from(is_cut),
        }
    }
    Ok(holds(cut > 0, "no reader was too slow"))
}

const TRIALS: usize = 30;

/// One run with a slow reader; whether it lost an answer.
fn slow_trial(
    program: &Path,
    script: &[u8],
    capacity: i32,
    non_blocking: bool,
    pause: Duration,
) -> io::Result<Result<bool, String>> {
    let expected = text::run(script);
    let (mut reader, writer) = output_pipe(capacity, non_blocking)?;
    let mut run = Run::start(Command::new(program), script, writer.into())?;
    let arrived = read_slowly(&mut reader, pause, expected.len())?;
    if !expected.starts_with(&arrived) || arrived.len() == expected.len() {
        // The program waits for more input, and is stopped.
        run.child.kill()?;
        run.child.wait()?;
        let right = holds(arrived == expected, difference(&arrived, &expected));
        return Ok(right.map(|()| false));
    }
    let ended = run.end()?;
    let cut = ended.and_then(|errors| is_beginning(&arrived, &errors, &expected));
    let allowed = cut.and_then(|()| holds(non_blocking, "a blocking pipe lost an answer"));
    Ok(allowed.map(|()| true))
}

/// The pipe fills before anything is read.
fn no_reader(program: &Path) -> io::Result<Done> {
    for (lots, capacity) in [(1, 4096), (3, 4096), (64, 4096), (20, 65536), (64, 65536)] {
        let script = questions(lots, 12_000);
        let expected = text::run(&script);
        let (mut reader, writer) = output_pipe(capacity, true)?;
        let run = Run::start(Command::new(program), &script, writer.into())?;
        let errors = match run.end()? {
            Ok(errors) => errors,
            Err(what) => return Ok(Err(what)),
        };
        let mut arrived = Vec::new();
        reader.read_to_end(&mut arrived)?;
        let is_cut = holds(arrived.len() < expected.len(), "nothing was cut");
        let done = is_cut.and_then(|()| is_beginning(&arrived, &errors, &expected));
        if let Err(failure) = done {
            return Ok(Err(format!("{lots} lots, pipe of {capacity}: {failure}")));
        }
    }
    Ok(Ok(()))
}

fn full_device(program: &Path) -> io::Result<Done> {
    let full = OpenOptions::new().write(true).open("/dev/full")?;
    let run = Run::start(Command::new(program), b"T\nT\nP\n", full.into())?;
    let ended = run.end()?;
    Ok(ended.and_then(|errors| holds(errors == WRITE_FAILED, format!("{errors:?}"))))
}

/// A reader that takes the first answers and goes. The write fails, also where the
/// program is started with the signal of a broken pipe at its default.
fn early_close(program: &Path) -> io::Result<Done> {
    let default = close_early(Command::new(program))?;
    let mut shell = Command::new("sh");
    shell.args(["-c", "trap '' PIPE; exec \"$0\""]).arg(program);
    let ignored = close_early(shell)?;
    Ok(default.and(ignored))
}

fn close_early(command: Command) -> io::Result<Done> {
    let script = questions(64, 2_000);
    let expected = text::run(&script);
    let (mut reader, writer) = output_pipe(4096, false)?;
    let run = Run::start(command, &script, writer.into())?;
    let arrived = read_slowly(&mut reader, Duration::ZERO, 20_000)?;
    drop(reader);
    let ended = run.end()?;
    Ok(ended.and_then(|errors| {
        holds(
            errors == WRITE_FAILED,
            format!("standard error has {errors:?}"),
        )?;
        let difference = difference(&arrived, &expected);
        holds(expected.starts_with(&arrived), difference)
    }))
}

fn closed_output(program: &Path) -> io::Result<Done> {
    let mut shell = Command::new("sh");
    shell.args(["-c", "exec \"$0\" >&-"]).arg(program);
    let run = Run::start(shell, b"T\nP\n", Stdio::null())?;
    let ended = run.end()?;
    Ok(ended.and_then(|errors| holds(errors == WRITE_FAILED, format!("{errors:?}"))))
}

/// Reading a folder fails, which is not the end of input.
fn folder(program: &Path) -> io::Result<Done> {
    let output = Command::new(program).stdin(File::open("/")?).output()?;
    let errors = String::from_utf8_lossy(&output.stderr);
    let done = holds(output.stdout.is_empty(), "something was written");
    Ok(done
        .and_then(|()| holds(errors == READ_FAILED, format!("{errors:?}")))
        .and_then(|()| holds(output.status.code() == Some(1), output.status.to_string())))
}

/// A line that neither a newline nor the end of input has ended is not carried
/// out; with the end of input it is.
fn failed_read_in_a_line(program: &Path) -> io::Result<Done> {
    for (script, expected) in [
        ("T\nP", "ok\n"),
        ("T\nP\n", "ok\nlots 0 phase open pending 0\n"),
    ] {
        // Nothing more can be read, and reading does not wait.
        let (mut ours, theirs) = UnixStream::pair()?;
        ours.write_all(script.as_bytes())?;
        theirs.set_nonblocking(true)?;
        let output = Command::new(program)
            .stdin(OwnedFd::from(theirs))
            .output()?;
        let errors = String::from_utf8_lossy(&output.stderr);
        let arrived = String::from_utf8_lossy(&output.stdout);
        let done = holds(arrived == expected, format!("{arrived:?} for {script:?}"))
            .and_then(|()| holds(errors == READ_FAILED, format!("{errors:?}")))
            .and_then(|()| holds(output.status.code() == Some(1), output.status.to_string()));
        if done.is_err() {
            return Ok(done);
        }
    }
    let run = compare::child::run(program, b"T\nP", TIME_LIMIT)?;
    let whole = text::run(b"T\nP");
    Ok(holds(
        run.bytes == whole,
        "the last line may lack its newline",
    ))
}
