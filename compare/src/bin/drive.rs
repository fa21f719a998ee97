//! Runs scripts, fixed ones and generated from a seed, on the model and on a
//! program, and compares every byte of their outputs; and lists of calls on the
//! model alone.

use compare::call::Call;
use compare::child::{self, End, Output, Running};
use compare::crashed;
use compare::list;
use compare::merged;
use compare::reach::{self, Mark};
use compare::reserved;
use compare::script::{self, fixed, Script};
use compare::selfcheck::{self, Failure, Run, Searches};
use compare::{shrink, text};
use std::collections::BTreeSet;
use std::fmt;
use std::io::{self, Write};
use std::path::{Path, PathBuf};
use std::process::ExitCode;
use std::time::{Duration, Instant};

const USAGE: &str = "usage:
  drive --program PATH [--scripts N] [--seed S] [--lines L]
      compare the program's output with the model's on the fixed scripts and on
      N others of about L lines, and check the model on as many lists of L / 2 calls
  drive --self N [--seed S] [--lines L]
      only check the model itself
  drive --script I [--seed S] [--lines L]
      write script I to standard output";

const DEFAULT_SCRIPTS: u64 = 2_000;
const DEFAULT_LINES: usize = 500;

/// A program is stopped after this long on one script.
const TIME_LIMIT: Duration = Duration::from_secs(60);
/// The same while shrinking, and the time after which shrinking gives up.
const SHRINK_TIME_LIMIT: Duration = Duration::from_secs(3);
const SHRINK_TIME: Duration = Duration::from_secs(60);

struct Options {
    program: Option<PathBuf>,
    scripts: u64,
    only_self: bool,
    show: Option<u64>,
    seed: u64,
    lines: usize,
}

fn main() -> ExitCode {
    let Some(options) = read_options() else {
        eprintln!("{USAGE}");
        return ExitCode::from(2);
    };
    let done = match options.show {
        Some(index) => show(&options, index),
        None => drive(&options),
    };
    done.unwrap_or_else(|error| {
        eprintln!("drive: {error}");
        ExitCode::from(2)
    })
}

fn read_options() -> Option<Options> {
    let mut options = Options {
        program: None,
        scripts: DEFAULT_SCRIPTS,
        only_self: false,
        show: None,
        seed: 1,
        lines: DEFAULT_LINES,
    };
    let mut arguments = std::env::args().skip(1);
    while let Some(name) = arguments.next() {
        let value = arguments.next()?;
        match name.as_str() {
            "--program" => options.program = Some(PathBuf::from(value)),
            "--scripts" => options.scripts = value.parse().ok()?,
            "--self" => {
                options.only_self = true;
                options.scripts = value.parse().ok()?;
            }
            "--script" => options.show = Some(value.parse().ok()?),
            "--seed" => options.seed = value.parse().ok()?,
            "--lines" => options.lines = value.parse().ok()?,
            _ => return None,
        }
    }
    // One task at a time.
    let tasks = [
        options.program.is_some(),
        options.only_self,
        options.show.is_some(),
    ];
    let asked = tasks.into_iter().filter(|&task| task).count();
    (asked == 1).then_some(options)
}

fn show(options: &Options, index: u64) -> io::Result<ExitCode> {
    let script = script::generate(options.seed, index, options.lines);
    io::stdout().write_all(&script.concat())?;
    Ok(ExitCode::SUCCESS)
}

/// What the scripts so far gave together.
#[derive(Default)]
struct Totals {
    scripts: usize,
    lines: usize,
    deliveries: u64,
    searches: Searches,
    marks: BTreeSet<Mark>,
}

impl Totals {
    /// Runs a script; whether it passed. If not, says so under its name, and
    /// the shrunk script goes to a file.
    fn pass(&mut self, options: &Options, script: &Script, name: &str) -> io::Result<bool> {
        match try_script(options.program.as_deref(), script)? {
            Ok(run) => {
                self.scripts += 1;
                self.lines += run.lines;
                self.deliveries += run.deliveries;
                self.searches.add(&run.searches);
                self.marks.extend(run.marks);
                Ok(true)
            }
            Err(trouble) => {
                println!("script {name}");
                let file = format!("drive-{}.txt", name.replace([' ', '/', '`'], "-"));
                report(script, &trouble, &std::env::temp_dir().join(file))?;
                Ok(false)
            }
        }
    }
}

/// What the lists of calls so far gave together.
#[derive(Default)]
struct Lists {
    lists: usize,
    calls: usize,
    reserved: BTreeSet<reserved::Met>,
    crashed: BTreeSet<crashed::Met>,
    merged: BTreeSet<merged::Met>,
}

impl Lists {
    /// Checks the model on a list; whether it passed. If not, says so under its
    /// name, with the calls that show it.
    fn pass(&mut self, list: &[Call], name: &str) -> bool {
        let Err(failure) = selfcheck::run_list(list) else {
            self.lists += 1;
            self.calls += list.len();
            self.reserved.extend(list::met(list, reserved::met));
            self.crashed.extend(list::met(list, crashed::met));
            self.merged.extend(list::met(list, merged::met));
            return true;
        };
        println!(
            "list {name}: the model failed its own check: {}",
            failure.what
        );
        let mut same = |calls: &[Call]| {
            selfcheck::run_list(calls).is_err_and(|other| other.what == failure.what)
        };
        for call in shrink::shrink(list, &mut same) {
            println!("{call:?}");
        }
        false
    }
}

fn drive(options: &Options) -> io::Result<ExitCode> {
    let start = Instant::now();
    let (mut fixed, mut generated) = (Totals::default(), Totals::default());
    let (mut fixed_lists, mut lists) = (Lists::default(), Lists::default());
    let mut passed = true;
    for (name, script) in fixed::scripts() {
        passed = passed && fixed.pass(options, &script, &name)?;
    }
    for (name, list) in list::fixed::lists() {
        passed = passed && fixed_lists.pass(&list::fixed::calls(&list), name);
    }
    for index in (0..options.scripts).take_while(|_| passed) {
        let script = script::generate(options.seed, index, options.lines);
        let list = list::generate(options.seed, index, options.lines / 2);
        let name = format!("{index} of seed {}", options.seed);
        if !generated.pass(options, &script, &name)? || !lists.pass(&list, &name) {
            passed = false;
            break;
        }
    }
    let scripts = fixed.scripts + generated.scripts;
    let all = scripts + fixed_lists.lists + lists.lists;
    if !passed {
        println!("{all} passed, 1 failed");
        return Ok(ExitCode::FAILURE);
    }
    let seconds = start.elapsed().as_secs_f64();
    let lines = fixed.lines + generated.lines;
    let deliveries = fixed.deliveries + generated.deliveries;
    let (of_fixed, of_generated) = (&fixed.marks, &generated.marks);
    print_reached(("marks", "scripts"), &reach::all(), of_fixed, of_generated);
    println!("searches of fixed scripts: {}", fixed.searches);
    println!("searches of generated scripts: {}", generated.searches);
    let (of_fixed, of_generated) = (&fixed_lists.reserved, &lists.reserved);
    let what = ("cases of reserved lots", "lists");
    print_reached(what, &reserved::all(), of_fixed, of_generated);
    let (of_fixed, of_generated) = (&fixed_lists.crashed, &lists.crashed);
    let what = ("cases of crashes and components", "lists");
    print_reached(what, &crashed::all(), of_fixed, of_generated);
    let (of_fixed, of_generated) = (&fixed_lists.merged, &lists.merged);
    let what = ("cases of merges", "lists");
    print_reached(what, &merged::all(), of_fixed, of_generated);
    let calls = fixed_lists.calls + lists.calls;
    println!(
        "{lines} lines, {deliveries} deliveries, {calls} calls of lists, {seconds:.1} seconds"
    );
    println!("{all} passed, 0 failed");
    Ok(ExitCode::SUCCESS)
}

/// How much of all there is to reach the fixed ones and the generated ones reach, and
/// what the generated ones leave to the fixed ones.
fn print_reached<T: Ord + fmt::Debug>(
    (what, by): (&str, &str),
    all: &BTreeSet<T>,
    fixed: &BTreeSet<T>,
    generated: &BTreeSet<T>,
) {
    let reached = |some: &BTreeSet<T>| all.intersection(some).count();
    let (by_fixed, by_generated) = (reached(fixed), reached(generated));
    let of = all.len();
    println!("{of} {what}: fixed {by} reach {by_fixed}, generated ones {by_generated}");
    let left: Vec<_> = all.difference(generated).collect();
    println!("left to the fixed {by}: {left:?}");
}

enum Trouble<'a> {
    /// A self check of the model failed.
    Model(Failure),
    /// The program's output is not the model's.
    Difference { program: &'a Path, end: End },
}

fn try_script<'a>(
    program: Option<&'a Path>,
    script: &Script,
) -> io::Result<Result<Run, Trouble<'a>>> {
    let input = script.concat();
    let Some(program) = program else {
        return Ok(selfcheck::run(&input).map_err(Trouble::Model));
    };
    // The program is started first, so that it runs beside the model.
    let running = Running::start(program, &input)?;
    let checked = selfcheck::run(&input);
    let output = running.finish(TIME_LIMIT)?;
    let compare = |run: Run| match is_right(&output, &run.output) {
        true => Ok(run),
        false => Err(Trouble::Difference {
            program,
            end: output.end.clone(),
        }),
    };
    Ok(checked.map_err(Trouble::Model).and_then(compare))
}

fn is_right(output: &Output, expected: &[u8]) -> bool {
    output.end == End::Success && output.bytes == expected
}

/// Shrinks the script, writes it to a file and prints what it shows.
fn report(script: &Script, trouble: &Trouble, file: &Path) -> io::Result<()> {
    match trouble {
        Trouble::Model(failure) => {
            println!("the model failed its own check: {}", failure.what);
            let mut same =
                |input: &[u8]| selfcheck::run(input).is_err_and(|other| other.what == failure.what);
            shrink_to_file(script, &mut same, file)?;
        }
        Trouble::Difference { program, end } => {
            println!("the outputs differ");
            let mut same = |input: &[u8]| differs(program, input, end);
            let input = shrink_to_file(script, &mut same, file)?;
            let output = child::run(program, &input, SHRINK_TIME_LIMIT)?;
            print_bytes("model", &text::run(&input));
            print_bytes("program", &output.bytes);
            println!("--- end of the program: {:?}", output.end);
        }
    }
    Ok(())
}

/// Whether the program gives another output than the model. A stop at the time
/// limit counts only if that is what is looked for.
fn differs(program: &Path, input: &[u8], looked_for: &End) -> bool {
    match child::run(program, input, SHRINK_TIME_LIMIT) {
        Ok(output) if output.end == End::TimeLimit => *looked_for == End::TimeLimit,
        Ok(output) => *looked_for != End::TimeLimit && !is_right(&output, &text::run(input)),
        Err(_) => false,
    }
}

fn shrink_to_file(
    script: &Script,
    same: &mut dyn FnMut(&[u8]) -> bool,
    file: &Path,
) -> io::Result<Vec<u8>> {
    let start = Instant::now();
    let mut in_time = |input: &[u8]| start.elapsed() < SHRINK_TIME && same(input);
    let input = shrink::shrink_script(script, &mut in_time).concat();
    std::fs::write(file, &input)?;
    println!("shrunk to {}", file.display());
    print_bytes("script", &input);
    Ok(input)
}

/// Prints bytes line by line, those outside the printed ASCII range escaped.
fn print_bytes(title: &str, bytes: &[u8]) {
    println!("--- {title}");
    for line in bytes.split_inclusive(|&byte| byte == b'\n') {
        match line.strip_suffix(b"\n") {
            Some(text) => println!("{}", text.escape_ascii()),
            None => println!("{} (no newline)", line.escape_ascii()),
        }
    }
}
