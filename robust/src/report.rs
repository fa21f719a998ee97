//! Makes a difference small and writes it down.

use crate::judge::{Difference, Judge};
use crate::round::{opened, Failure};
use compare::graph::SEATS;
use compare::lent;
use compare::lent::place::{ENTRIES_AT, ENTRY, PENDING_AT};
use compare::shrink::shrink;
use std::collections::BTreeMap;
use std::fmt::Write as _;
use std::path::Path;
use std::time::{Duration, Instant};
use std::{fs, io, mem};

/// The time after which shrinking gives up.
const SHRINK_TIME: Duration = Duration::from_secs(20);

/// Puts as many bytes as possible back to what open writes, as long as the call
/// shows a difference of the same sort: byte by byte, then whole entries.
pub fn shrunk(judge: &mut Judge, failure: &Failure) -> Failure {
    let mut small = Failure {
        record: failure.record.clone(),
        ..*failure
    };
    if small.record.len() == lent::SIZE {
        let until = Instant::now() + SHRINK_TIME;
        let each = |place| place;
        let by_entry = |place| match place {
            ENTRIES_AT..PENDING_AT => (place - ENTRIES_AT) / ENTRY,
            other => other + SEATS,
        };
        shrink_by(each, judge, &mut small, until);
        shrink_by(by_entry, judge, &mut small, until);
        shrink_by(each, judge, &mut small, until);
    }
    small
}

/// Puts back all bytes of a group together; `group` names that of a place.
fn shrink_by(
    group: impl Fn(usize) -> usize,
    judge: &mut Judge,
    small: &mut Failure,
    until: Instant,
) {
    let start = opened();
    let mut groups: BTreeMap<usize, Vec<usize>> = BTreeMap::new();
    for place in (0..start.len()).filter(|&place| small.record[place] != start[place]) {
        groups.entry(group(place)).or_default().push(place);
    }
    let groups: Vec<Vec<usize>> = groups.into_values().collect();
    let mut fails = |kept: &[Vec<usize>]| {
        let record = with(&start, kept.iter().flatten(), &small.record);
        let Some(difference) = same_sort(judge, &record, small) else {
            return false;
        };
        small.record = record;
        small.difference = difference;
        Instant::now() < until
    };
    shrink(&groups, &mut fails);
}

fn with<'a>(start: &[u8], places: impl Iterator<Item = &'a usize>, record: &[u8]) -> Vec<u8> {
    let mut with = start.to_vec();
    for &place in places {
        with[place] = record[place];
    }
    with
}

fn same_sort(judge: &mut Judge, record: &[u8], failure: &Failure) -> Option<Difference> {
    let made = judge.call(record, failure.call, failure.fill);
    let difference = match made {
        Ok(answer) => judge.tie_to_model(record, failure.call, answer).err()?,
        Err(difference) => difference,
    };
    let sort = mem::discriminant(&difference) == mem::discriminant(&failure.difference);
    sort.then_some(difference)
}

/// Prints the failure, and writes its record to a file as hexadecimal numbers.
pub fn write(failure: &Failure, file: &Path) -> io::Result<()> {
    println!("{:?}", failure.call);
    println!("{:x?}", failure.difference);
    let start = opened();
    println!("record of {} bytes; not as opened:", failure.record.len());
    let bytes = failure.record.iter().zip(&start).enumerate();
    for (at, (byte, _)) in bytes.filter(|(_, (byte, opened))| byte != opened).take(40) {
        print!(" {at}:{byte}");
    }
    println!();
    let mut hex = String::new();
    for line in failure.record.chunks(32) {
        for byte in line {
            write!(hex, "{byte:02x}").expect("a string takes all");
        }
        hex.push('\n');
    }
    fs::write(file, hex)?;
    println!("written to {}", file.display());
    Ok(())
}
