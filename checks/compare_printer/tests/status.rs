//! `compare_printer` as a program: what it ends with.

use std::process::{Command, Output};

/// Runs it with a command that is no column printer.
fn compare_printer(printer: &[&str]) -> Output {
    Command::new(env!("CARGO_BIN_EXE_compare_printer")).args(printer).output().expect("it can be run")
}

/// Ends with 1 and says so.
fn assert_differs(printer: &[&str], words: &str) {
    let output = compare_printer(printer);
    let printed = String::from_utf8(output.stdout).expect("a text");
    assert!(printed.contains(words), "{printer:?}: {printed}");
    assert_eq!(output.status.code(), Some(1), "{printer:?}");
}

#[test]
fn a_wrong_printer_is_a_difference() {
    assert_differs(&["cat"], "\n20 differences\n");
    assert_differs(&["false"], "differs at byte 0");
    assert_differs(&["./there is no such program"], "could not be run");
}

#[test]
fn a_command_line_without_a_printer_ends_with_2() {
    assert_eq!(compare_printer(&[]).status.code(), Some(2));
}
