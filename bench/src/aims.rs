//! What the library is to reach, and whether it does.

use crate::rows::Row;

/// A row, and how many times as much the library takes as what it is compared with.
pub struct Ratio<'a> {
    pub row: &'a Row,
    pub ratio: f64,
}

/// That no ratio is above `most`: how many are, and the highest. Says nothing if there
/// is none.
pub fn print_most(aim: &str, most: f64, ratios: Vec<Ratio>) {
    let above = ratios.iter().filter(|ratio| ratio.ratio > most).count();
    let highest = ratios
        .iter()
        .max_by(|one, other| one.ratio.total_cmp(&other.ratio));
    let Some(Ratio { row, ratio }) = highest else {
        return;
    };
    println!(
        "Aim {}: {aim}; {above} of {} rows above, highest {ratio:.3} ({}, {}).",
        met(above == 0),
        ratios.len(),
        row.call,
        row.record
    );
}

pub fn met(is_met: bool) -> &'static str {
    match is_met {
        true => "met",
        false => "NOT met",
    }
}
