//! How much stack the calls use: the stack below is painted, the call made, and
//! the lowest byte that lost its paint looked for.

use crate::calls::{library, rust, Make};
use crate::rows::{self, Row};
use compare::call::Call;
use std::hint::black_box;
use std::thread;

/// What is painted below the caller, but for what its own frame may use.
const PAINTED: usize = 32 * 1024;
const OWN: usize = 256;
const STACK: usize = 1024 * 1024;
const PAINT: u8 = 0xA7;

pub fn print() {
    let measure = || {
        let rows = rows::all();
        [library as Make, rust].map(|make| deepest(make, &rows))
    };
    let thread = thread::Builder::new().stack_size(STACK).spawn(measure);
    let measured = thread.expect("a thread starts").join();
    for (side, (depth, call)) in ["library", "Rust"]
        .iter()
        .zip(measured.expect("calls return"))
    {
        println!("Deepest stack, {side}: {depth} bytes in {call}, the caller's frame counted in.");
    }
}

fn deepest(make: Make, rows: &[Row]) -> (usize, &'static str) {
    let depth = |row: &Row| {
        let mut record = row.start.clone();
        let depths = row.calls.iter().map(|&call| depth(make, call, &mut record));
        (depths.max().expect("a row has calls"), row.call)
    };
    rows.iter().map(depth).max().expect("there are rows")
}

#[inline(never)]
fn depth(make: Make, call: Call, record: &mut [u8]) -> usize {
    let local = black_box(0u8);
    let here = black_box(&raw const local) as usize;
    let painted = |at: usize| (here - OWN - at) as *mut u8;
    // SAFETY: the thread's stack reaches that far down, and nothing lives below
    // this frame while it runs; the accesses are volatile, so each is made.
    (0..PAINTED).for_each(|at| unsafe { painted(at).write_volatile(PAINT) });
    black_box(make(black_box(call), black_box(record)));
    let lost = |at: &usize| unsafe { painted(*at).read_volatile() } != PAINT;
    let lowest = (0..PAINTED).rev().find(lost);
    lowest.map_or(0, |at| OWN + at)
}
