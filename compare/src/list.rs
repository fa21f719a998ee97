//! Lists of calls that start on an opened record, fixed ones and from a seed. They
//! hold what no line of a script says: reservations, crashes, merges, single bundles,
//! readings.

pub mod fixed;

use crate::call::{Answer, Call};
use crate::inputs::{self, Style};
use crate::lent;
use crate::model::Model;
use crate::random::Random;
use std::collections::BTreeSet;

/// A style of calls lasts that many on average.
const STYLE: usize = 30;

/// The list `index` of the run of a seed, of that many calls.
pub fn generate(seed: u64, index: u64, calls: usize) -> Vec<Call> {
    let mut random = Random::of_script(seed, index);
    let pools = inputs::pools(&mut random);
    let mut style = random.pick(&[Style::Reserving, Style::Crashing, Style::Merging]);
    let mut record = lent::to_bytes(&Model::open());
    let mut next = || {
        if random.one_in(STYLE) {
            let any = random.pick(&Style::ALL);
            style = random.pick(&[any, any, Style::Crashing, Style::Merging]);
        }
        let call = inputs::call(&record, style, &pools, &mut random);
        call.on_bytes(&mut record);
        call
    };
    (0..calls).map(|_| next()).collect()
}

/// What the calls of a list meet, told apart by call, answer and record before.
pub fn met<M: Ord>(list: &[Call], tell: impl Fn(Call, Answer, &[u8]) -> Vec<M>) -> BTreeSet<M> {
    let mut record = lent::to_bytes(&Model::open());
    let calls = list.iter().flat_map(|&call| {
        let before = record.clone();
        tell(call, call.on_bytes(&mut record), &before)
    });
    calls.collect()
}
