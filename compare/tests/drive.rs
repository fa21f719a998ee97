//! The driver against the model, and against programs that differ from it.

use std::fs;
use std::path::PathBuf;
use std::process::{Command, Output};

const DRIVE: &str = env!("CARGO_BIN_EXE_drive");
const MODEL: &str = env!("CARGO_BIN_EXE_model");

fn drive(arguments: &[&str]) -> Output {
    let seed = ["--seed", "5", "--lines", "200"];
    let command = &mut Command::new(DRIVE);
    command.args(arguments).args(seed).output().unwrap()
}

fn last_line(output: &Output) -> String {
    let text = String::from_utf8(output.stdout.clone()).unwrap();
    text.lines().last().unwrap_or_default().to_string()
}

/// The last line of a run of that many generated scripts, and as many lists.
fn all_passed(generated: usize) -> String {
    let fixed = compare::script::fixed::scripts().len() + compare::list::fixed::lists().len();
    format!("{} passed, 0 failed", fixed + 2 * generated)
}

/// A shell script as program.
fn program(name: &str, body: &str) -> PathBuf {
    use std::os::unix::fs::PermissionsExt;
    let path = PathBuf::from(env!("CARGO_TARGET_TMPDIR")).join(name);
    fs::write(&path, format!("#!/bin/sh\n{body}\n")).unwrap();
    fs::set_permissions(&path, fs::Permissions::from_mode(0o755)).unwrap();
    path
}

/// The printed script of a failed run.
fn shrunk_script(output: &Output) -> Vec<String> {
    let text = String::from_utf8(output.stdout.clone()).unwrap();
    let lines = text.lines().skip_while(|line| *line != "--- script");
    let script = lines.skip(1).take_while(|line| !line.starts_with("---"));
    script.map(String::from).collect()
}

#[test]
fn the_model_agrees_with_itself() {
    let output = drive(&["--program", MODEL, "--scripts", "60"]);
    assert!(output.status.success());
    assert_eq!(last_line(&output), all_passed(60));
}

#[test]
fn self_checks_pass() {
    let output = drive(&["--self", "60"]);
    assert!(output.status.success());
    assert_eq!(last_line(&output), all_passed(60));
}

#[test]
fn a_wrong_answer_is_found_and_shrunk() {
    let body = format!("{MODEL} | sed 's/^no 9$/no 8/'");
    let path = program("wrong-refusal", &body);
    let output = drive(&["--program", path.to_str().unwrap(), "--scripts", "60"]);
    assert_eq!(output.status.code(), Some(1));
    let script = shrunk_script(&output);
    // Refusal 9 takes a join and two leaves of the same seat.
    assert_eq!(script.len(), 3, "{script:?}");
    assert!(script[0].starts_with('J'));
    assert_eq!(script[1], script[2].replace(" (no newline)", ""));
    assert!(last_line(&output).ends_with(" passed, 1 failed"));
}

#[test]
fn a_search_that_does_not_wait_is_found_and_shrunk() {
    let body = format!("{MODEL} | sed 's/^no 13$/none hops 0/'");
    let path = program("no-wait", &body);
    let output = drive(&["--program", path.to_str().unwrap(), "--scripts", "60"]);
    assert_eq!(output.status.code(), Some(1));
    let script = shrunk_script(&output);
    // Refusal 13 takes two joins, so that a message is pending.
    assert_eq!(script.len(), 3, "{script:?}");
    assert!(script[2].starts_with('F'));
}

#[test]
fn a_missing_last_newline_is_a_difference() {
    let path = program("no-newline", &format!("printf %s \"$({MODEL})\""));
    let output = drive(&["--program", path.to_str().unwrap(), "--scripts", "60"]);
    assert_eq!(output.status.code(), Some(1));
}

#[test]
fn a_program_that_fails_is_a_difference() {
    let path = program("fails", &format!("{MODEL}; exit 3"));
    let output = drive(&["--program", path.to_str().unwrap(), "--scripts", "60"]);
    assert_eq!(output.status.code(), Some(1));
    assert_eq!(last_line(&output), "0 passed, 1 failed");
}

#[test]
fn a_program_that_is_not_there_is_an_error() {
    let output = drive(&["--program", "/nowhere/lots"]);
    assert_eq!(output.status.code(), Some(2));
}
