//! What the header, the documents and this crate all say is the same.

use lots_record::{LAYOUT_VERSION, SIZE};

const HEADER: &str = include_str!("../../lots.h");
const README: &str = include_str!("../../README.md");
const RECORD: &str = include_str!("../../../docs/RECORD.md");

/// What a macro of the header stands for.
fn defined(name: &str) -> &'static str {
    let start = format!("#define {name} ");
    let mut values = HEADER.lines().filter_map(|line| line.strip_prefix(&start));
    let value = values.next().expect("the header has the macro");
    assert_eq!(values.next(), None);
    value
}

#[test]
fn one_version() {
    let version = env!("CARGO_PKG_VERSION");
    assert_eq!(defined("LOTS_VERSION"), format!("\"{version}\""));
    let parts = ["MAJOR", "MINOR", "PATCH"].map(|part| defined(&format!("LOTS_VERSION_{part}")));
    assert_eq!(parts.join("."), version);
}

#[test]
fn one_size_and_one_layout() {
    assert_eq!(defined("LOTS_RECORD_SIZE"), SIZE.to_string());
    assert_eq!(defined("LOTS_LAYOUT_VERSION"), LAYOUT_VERSION.to_string());
    let bytes = format!("{},{:03} bytes", SIZE / 1000, SIZE % 1000);
    assert!(RECORD.contains(&format!("A record is {bytes}")));
    assert!(RECORD.contains(&format!("layout version {LAYOUT_VERSION}")));
    assert!(README.contains(&bytes));
}

/// At most 40 lines, and the README shows it as it is, with what it prints.
#[test]
fn the_first_program() {
    let program = include_str!("../../first.c");
    assert!(program.lines().count() <= 40);
    let includes = program.lines().filter(|line| line.starts_with("#include"));
    let includes: Vec<&str> = includes.collect();
    assert_eq!(includes, ["#include \"lots.h\"", "#include <stdio.h>"]);
    assert!(README.contains(&format!("```c\n{program}```\n")));
    assert!(README.contains(include_str!("../../first.out").trim_end()));
}
