//! The processor that a table was made on.

use std::fs;

/// Its name, family and model.
pub fn print() {
    let about = fs::read_to_string("/proc/cpuinfo").unwrap_or_default();
    let [name, family, model] =
        ["model name", "cpu family", "model"].map(|key| value(&about, key).unwrap_or("unknown"));
    println!("Processor: {name}, family {family}, model {model}.");
}

/// The value in the first line with the key.
fn value<'a>(about: &'a str, key: &str) -> Option<&'a str> {
    let mut pairs = about.lines().filter_map(|line| line.split_once(':'));
    let first = pairs.find(|(name, _)| name.trim() == key);
    first.map(|(_, value)| value.trim())
}
