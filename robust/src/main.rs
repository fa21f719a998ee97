//! Makes calls through the static library and compares each with Rust.

use robust::judge::{Judge, Memory};
use robust::round::{self, CALLS};
use robust::tally::Tally;
use robust::{report, sys};
use std::process::ExitCode;
use std::time::Instant;

const USAGE: &str = "usage: robust [--calls N] [--seed S] [--round R] [--exact yes]
  --calls   how many calls, a million if not said; a round has 500. A run of a million
            or more that has not met every case goes on, up to four times as long
  --round   only this round of the seed
  --exact   the record in a block of its own, without guard bytes, for valgrind";

const DEFAULT_CALLS: u64 = 1_000_000;

/// A run of that many calls or more goes on until every case was met, up to so many
/// times as long.
const LONGEST: u64 = 4;

struct Options {
    calls: u64,
    seed: u64,
    round: Option<u64>,
    memory: Memory,
}

fn read_options() -> Option<Options> {
    let mut options = Options {
        calls: DEFAULT_CALLS,
        seed: 1,
        round: None,
        memory: Memory::Guarded,
    };
    let mut arguments = std::env::args().skip(1);
    while let Some(name) = arguments.next() {
        let value = arguments.next()?;
        match (name.as_str(), value.as_str()) {
            ("--calls", number) => options.calls = number.parse().ok()?,
            ("--seed", number) => options.seed = number.parse().ok()?,
            ("--round", number) => options.round = Some(number.parse().ok()?),
            ("--exact", "yes") => options.memory = Memory::Exact,
            _ => return None,
        }
    }
    Some(options)
}

fn main() -> ExitCode {
    let Some(options) = read_options() else {
        eprintln!("{USAGE}");
        return ExitCode::from(2);
    };
    let (first, asked) = match options.round {
        Some(round) => (round, 1),
        None => (0, options.calls.div_ceil(CALLS)),
    };
    let meets_all = asked * CALLS >= DEFAULT_CALLS;
    let most = asked * if meets_all { LONGEST } else { 1 };
    let start = Instant::now();
    let mut judge = Judge::new(sys::make, options.memory);
    let mut tally = Tally::default();
    let mut passed = 0;
    while passed < asked || (passed < most && !tally.gaps().is_empty()) {
        let index = first + passed;
        if let Err(failure) = round::run(&mut judge, &mut tally, options.seed, index) {
            println!("round {index} of seed {}", options.seed);
            let small = report::shrunk(&mut judge, &failure);
            let name = format!("robust-{}-{index}.hex", options.seed);
            if let Err(error) = report::write(&small, &std::env::temp_dir().join(name)) {
                eprintln!("robust: {error}");
            }
            println!("{passed} passed, 1 failed");
            return ExitCode::FAILURE;
        }
        passed += 1;
    }
    print!("{tally}");
    let seconds = start.elapsed().as_secs_f64();
    let (calls, on_model) = (tally.total(), tally.on_model);
    println!("{calls} calls, {on_model} of them on the model too, {seconds:.1} seconds");
    println!("{passed} rounds of {CALLS} calls; a round passes when each of its calls does");
    let gaps = tally.gaps();
    if meets_all && !gaps.is_empty() {
        println!("{}", gaps.join(", "));
        println!("{passed} passed, {} failed", gaps.len());
        return ExitCode::FAILURE;
    }
    println!("{passed} passed, 0 failed");
    ExitCode::SUCCESS
}
