//! The best time of many turns, all timed in turn.

use crate::calls::{library, pass, pass_by_words, rust, Make};
use crate::rows::Row;
use std::hint::black_box;
use std::time::Instant;

/// Nanoseconds for the calls of a row; a pass for each of them; and one pass that
/// takes eight bytes at a time.
#[derive(Clone, Copy)]
pub struct Times {
    pub library: f64,
    pub rust: f64,
    pub pass: f64,
    pub by_words: f64,
}

/// All rows are timed so many times over, so that a slow spell of the machine
/// does not decide a row.
const SWEEPS: usize = 4;
const TURNS: usize = 400;
/// What is timed at once takes about as long as so many calls.
const CALLS: usize = 32;

type Pass = fn(&[u8]) -> u64;

impl Times {
    fn best(self, other: Times) -> Times {
        Times {
            library: self.library.min(other.library),
            rust: self.rust.min(other.rust),
            pass: self.pass.min(other.pass),
            by_words: self.by_words.min(other.by_words),
        }
    }
}

/// The times of the rows, in their order.
pub fn measure(rows: &[Row]) -> Vec<Times> {
    let mut best: Vec<Times> = rows.iter().map(measure_row).collect();
    for _ in 1..SWEEPS {
        for (best, row) in best.iter_mut().zip(rows) {
            *best = best.best(measure_row(row));
        }
    }
    best
}

fn measure_row(row: &Row) -> Times {
    let undo = same_on_both(row);
    let repeats = CALLS.div_ceil(row.length);
    let turns = (TURNS * CALLS / row.length).clamp(10, TURNS);
    let mut record = row.start.clone();
    let [mut by_library, mut by_rust, mut by_undo] = [f64::MAX; 3];
    let [mut by_pass, mut by_words] = [f64::MAX; 2];
    for _ in 0..turns {
        let mut timed = |make: Make, best: &mut f64| {
            let time = turn(repeats, || {
                for &call in &row.calls {
                    black_box(make(black_box(call), black_box(&mut record)));
                }
                put_back(&mut record, &undo);
            });
            *best = best.min(time);
        };
        timed(library, &mut by_library);
        timed(rust, &mut by_rust);
        by_undo = by_undo.min(turn(repeats, || put_back(black_box(&mut record), &undo)));
        for (pass, best) in [(pass as Pass, &mut by_pass), (pass_by_words, &mut by_words)] {
            let time = turn(CALLS, || {
                black_box(pass(black_box(&record)));
            });
            *best = best.min(time);
        }
    }
    Times {
        library: by_library - by_undo,
        rust: by_rust - by_undo,
        pass: by_pass * row.calls.len() as f64,
        by_words,
    }
}

fn turn(repeats: usize, mut work: impl FnMut()) -> f64 {
    let start = Instant::now();
    for _ in 0..repeats {
        work();
    }
    start.elapsed().as_nanos() as f64 / repeats as f64
}

/// Bytes to put back after the calls.
type Undo = Vec<(usize, u8)>;

fn put_back(record: &mut [u8], undo: &Undo) {
    for &(at, byte) in undo {
        record[at] = byte;
    }
}

/// Makes the calls once on each side: both must answer and write the same.
fn same_on_both(row: &Row) -> Undo {
    let (mut one, mut other) = (row.start.clone(), row.start.clone());
    for &call in &row.calls {
        assert_eq!(library(call, &mut one), rust(call, &mut other), "{call:?}");
    }
    assert!(one == other, "{}: the records differ", row.call);
    let changed = |at: &usize| one[*at] != row.start[*at];
    let changed = (0..one.len()).filter(changed);
    changed.map(|at| (at, row.start[at])).collect()
}
