//! `by_lines` as a program: what it ends with.

use std::process::{Command, Output};

/// Runs it on some calls and a program that is no second program.
fn by_lines(program: &[&str]) -> Output {
    let mut command = Command::new(env!("CARGO_BIN_EXE_by_lines"));
    command.args(["--calls", "130", "--"]).args(program).output().expect("it can be run")
}

/// Ends with 1 and says so.
fn assert_differs(program: &[&str], words: &str) {
    let output = by_lines(program);
    let printed = String::from_utf8(output.stdout).expect("a text");
    assert!(printed.contains(words), "{program:?}: {printed}");
    assert_eq!(output.status.code(), Some(1), "{program:?}");
}

#[test]
fn a_wrong_program_is_a_difference() {
    assert_differs(&["cat"], "difference; the call is a line for `second answer`:\nplaces ");
    assert_differs(&["true"], "the program gives:\nnothing\n");
    assert_differs(&["./there is no such program"], "the program cannot be run");
}

#[test]
fn a_command_line_without_a_program_ends_with_2() {
    assert_eq!(by_lines(&[]).status.code(), Some(2));
}
