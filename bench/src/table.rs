//! The table by time, and the aims.

use crate::aims::{self, met, Ratio};
use crate::rows::{self, Row};
use crate::time::{self, Times};

/// The library is to take at most so many times Rust's time in every row.
const AIM_OF_RUST: f64 = 1.1;
/// The validation of a full settled record is to take at most so many passes that take
/// eight bytes at a time.
const AIM_OF_PASSES: f64 = 4.0;
/// Draining by single deliveries is to take so many times as long as by bundles,
/// or longer.
const AIM_OF_BUNDLES: f64 = 10.0;

type Measured = [(Row, Times)];

/// Of a call, or of all.
pub fn print(call: Option<&str>) {
    let rows = rows::of(call);
    let times = time::measure(&rows);
    let measured: Vec<(Row, Times)> = rows.into_iter().zip(times).collect();
    println!(
        "{:<15} {:<42} {:>12} {:>12} {:>10}   {:>8} {:>8} {:>8}",
        "call", "record", "library/Rust", "library/pass", "Rust/pass", "library", "Rust", "pass"
    );
    for (row, times) in &measured {
        print_row(row, *times);
    }
    println!("{:>124}", "(nanoseconds)");
    print_of_rust(&measured);
    print_validate(&measured);
    print_draining(&measured);
}

fn print_row(row: &Row, times: Times) {
    let Times {
        library,
        rust,
        pass,
        ..
    } = times;
    println!(
        "{:<15} {:<42} {:>12.2} {:>12.2} {:>10.2}   {library:>8.0} {rust:>8.0} {pass:>8.0}",
        row.call,
        row.record,
        library / rust,
        library / pass,
        rust / pass,
    );
}

fn print_of_rust(measured: &Measured) {
    let ratios = measured.iter().map(|(row, times)| Ratio {
        row,
        ratio: times.library / times.rust,
    });
    let aim = format!("every row at most {AIM_OF_RUST} times Rust");
    aims::print_most(&aim, AIM_OF_RUST, ratios.collect());
}

fn print_validate(measured: &Measured) {
    for (row, times) in measured.iter().filter(|(row, _)| row.is_full_validate()) {
        let passes = times.library / times.by_words;
        println!(
            "Aim {}: {}, {}, at most {AIM_OF_PASSES} passes that take eight bytes at a time, {:.0} nanoseconds each; {passes:.2}, in Rust {:.2}.",
            met(passes <= AIM_OF_PASSES),
            row.call,
            row.record,
            times.by_words,
            times.rust / times.by_words,
        );
    }
}

/// How many times as long single deliveries take as bundles.
fn print_draining(measured: &Measured) {
    let mut rows = measured.iter().filter(|(row, _)| row.call == rows::DRAIN);
    let Some((_, singly)) = rows.next() else {
        return;
    };
    for (row, times) in rows {
        let factor = singly.library / times.library;
        println!(
            "Aim {}: single deliveries take {AIM_OF_BUNDLES} times as long as {}, {}, or longer; {factor:.1} times, in Rust {:.1}.",
            met(factor >= AIM_OF_BUNDLES),
            row.call,
            row.record,
            singly.rust / times.rust,
        );
    }
}
