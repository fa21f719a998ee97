//! The table by instructions. One run under valgrind's callgrind makes the calls of
//! all rows: it counts only inside `calls::library` and `calls::rust`, and writes down
//! the count whenever one of them has made the calls of a row.

use crate::aims::{self, Ratio};
use crate::calls::{library, rust, Make};
use crate::rows::{self, Row};
use std::fs;
use std::hint::black_box;
use std::path::{Path, PathBuf};
use std::process::Command;

/// No row is to make more instructions than so many times Rust's.
const AIM: f64 = 1.0;

/// The argument of the run that is counted.
pub const COUNTED: &str = "--counted";

pub fn print(call: Option<&str>) {
    let rows = rows::of(call);
    let folder = count(call);
    println!(
        "{:<15} {:<42} {:>12} {:>12} {:>12}",
        "call", "record", "library/Rust", "library", "Rust"
    );
    let mut ratios = Vec::new();
    for (row, first) in rows.iter().zip((1..).step_by(2)) {
        let [library, rust] = [first, first + 1].map(|part| counted(&folder, part));
        let ratio = library as f64 / rust as f64;
        println!(
            "{:<15} {:<42} {ratio:>12.3} {library:>12} {rust:>12}",
            row.call, row.record
        );
        ratios.push(Ratio { row, ratio });
    }
    let aim = format!("no row above {AIM:.1} times Rust in instructions");
    aims::print_most(&aim, AIM, ratios);
}

/// Counts, and gives the folder with a file for each part of the run: the library's
/// calls of the first row, Rust's, the library's of the second row, and so on.
fn count(call: Option<&str>) -> PathBuf {
    let bench = std::env::current_exe().expect("a running program has a path");
    let folder = bench.with_file_name("instructions");
    let _ = fs::remove_dir_all(&folder);
    fs::create_dir(&folder).expect("the folder of the program can be written");
    let mut valgrind = Command::new("valgrind");
    valgrind
        .args(["--quiet", "--tool=callgrind"])
        .args(["library", "rust"].map(|side| format!("--toggle-collect=bench::calls::{side}")))
        .arg("--dump-after=bench::instructions::once")
        .arg(format!("--callgrind-out-file={}/part", folder.display()))
        .arg(bench)
        .arg(COUNTED)
        .args(call);
    let status = valgrind.status().expect("valgrind is installed");
    assert!(status.success(), "the calls were not made: {status}");
    folder
}

/// The instructions of a part.
fn counted(folder: &Path, part: usize) -> u64 {
    let file = folder.join(format!("part.{part}"));
    let text = fs::read_to_string(&file).expect("each part of the run has a file");
    let total = text.lines().find_map(|line| line.strip_prefix("totals: "));
    let count = total.and_then(|total| total.parse().ok());
    let count = count.filter(|&count| count != 0);
    count.unwrap_or_else(|| panic!("{}: nothing was counted", file.display()))
}

/// The run that is counted. Both sides must answer and write the same.
pub fn make(call: Option<&str>) {
    for row in rows::of(call) {
        let [by_library, by_rust] = [library as Make, rust].map(|make| once(make, &row));
        assert!(
            by_library == by_rust,
            "{}, {}: both differ",
            row.call,
            row.record
        );
    }
}

/// The answers to the calls of a row, and the record after them.
#[inline(never)]
fn once(make: Make, row: &Row) -> (Vec<(u8, u64)>, Vec<u8>) {
    let mut record = row.start.clone();
    let answer = |&call| make(black_box(call), black_box(&mut record));
    let answers = row.calls.iter().map(answer).collect();
    (answers, record)
}
