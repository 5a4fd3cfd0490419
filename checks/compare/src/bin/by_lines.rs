//! Compares a program that answers calls as `second answer` does, one a line, with the second program: `answer.c`,
//! which makes them from C, for this processor or, in an emulator, for another. Edge calls of every kind stand on its
//! standard input, and drawn ones.
//!
//! ```text
//! by_lines [--seed N] [[--calls] N] -- COMMAND [ARGUMENT...]
//! ```
//!
//! Ends with 0 if it answers every line as the second program does and ends with 0, and with 1 otherwise: the first
//! difference is printed. Anything else on the command line ends it with 2.

use std::io::{BufRead, BufReader, BufWriter, Write};
use std::process::{Child, ChildStdin, Command, ExitCode, Stdio};
use std::thread;

use compare::calls::{Kind, KINDS};
use compare::command_line::Asked;
use compare::drawing::Drawing;
use second::answer::answer;

const USAGE: &str = "usage: by_lines [--seed N] [[--calls] N] -- COMMAND [ARGUMENT...]";

/// The seed, if the command line does not say it.
const SEED: u64 = 16_384;

/// The calls of all kinds together, if the command line does not say them.
const CALLS: usize = 50_000;

/// What stands before `--`, and the command after it.
fn asked(arguments: Vec<String>) -> Option<(Asked, Command)> {
    let end = arguments.iter().position(|word| word == "--")?;
    let (program, words) = arguments[end + 1..].split_first()?;
    let mut command = Command::new(program);
    command.args(words).stdin(Stdio::piped()).stdout(Stdio::piped());
    Some((Asked::of(arguments[..end].iter().cloned())?, command))
}

fn main() -> ExitCode {
    let Some((asked, command)) = asked(std::env::args().skip(1).collect()) else {
        eprintln!("{USAGE}");
        return ExitCode::from(2);
    };
    let (seed, calls) = (asked.seed.unwrap_or(SEED), asked.calls.unwrap_or(CALLS));
    let each = calls.div_ceil(KINDS.len());
    let lines: Vec<String> = KINDS.iter().flat_map(|kind| lines_of(kind, seed, each)).collect();
    match compare(command, &lines) {
        Ok(()) => {
            println!("{} calls, {each} of each kind, seed {seed}, 0 differences", lines.len());
            ExitCode::SUCCESS
        }
        Err(difference) => {
            println!("seed {seed}, {difference}");
            ExitCode::FAILURE
        }
    }
}

/// So many calls of one kind: edge calls, of which no more than half are taken, and drawn ones.
fn lines_of(kind: &Kind, seed: u64, calls: usize) -> Vec<String> {
    let step = (kind.edges)().div_ceil((calls / 2).max(1)).max(1);
    let mut lines = (kind.edge_lines)(step);
    let mut random = Drawing::new(seed);
    while lines.len() < calls {
        lines.extend((kind.drawn_lines)(&mut random));
    }
    lines.truncate(calls);
    lines
}

/// Has a program answer the lines. The first difference ends it.
fn compare(mut command: Command, lines: &[String]) -> Result<(), String> {
    let mut child = command.spawn().map_err(|error| format!("the program cannot be run: {error}"))?;
    let input = child.stdin.take().expect("its input is a pipe of ours");
    thread::scope(|scope| {
        scope.spawn(|| feed(input, lines));
        let compared = compare_answers(&mut child, lines);
        if compared.is_err() {
            // It may have ended by itself.
            let _ = child.kill();
        }
        let ended = child.wait().map_err(|error| error.to_string())?;
        compared.and(if ended.success() { Ok(()) } else { Err(format!("the program ends with {ended}")) })
    })
}

/// Writes the lines. A program that does not read them all is noticed by the answers that it does not give.
fn feed(input: ChildStdin, lines: &[String]) {
    let mut input = BufWriter::new(input);
    let _ = lines.iter().try_for_each(|line| writeln!(input, "{line}")).and_then(|()| input.flush());
}

/// Holds a program's answers against those of the second program.
fn compare_answers(child: &mut Child, lines: &[String]) -> Result<(), String> {
    let output = child.stdout.take().expect("its output is a pipe of ours");
    let mut answers = BufReader::new(output).lines();
    for line in lines {
        let expected = answer(line.as_bytes());
        let given = answers.next().transpose().map_err(|error| error.to_string())?;
        if given.as_deref() != Some(expected.as_str()) {
            let given = given.as_deref().unwrap_or("nothing");
            return Err(format!(
                "difference; the call is a line for `second answer`:\n{line}\nthe program gives:\n{given}\n\
                 the second program gives:\n{expected}"
            ));
        }
    }
    answers.next().map_or(Ok(()), |_| Err(String::from("the program gives more answers than there are calls")))
}

#[cfg(test)]
mod tests {
    use super::*;

    #[test]
    fn command_lines() {
        let asked = |line: &str| asked(line.split_whitespace().map(String::from).collect());
        let (numbers, command) = asked("--seed 7 9 -- run -- it").expect("a command");
        assert_eq!((numbers.seed, numbers.calls), (Some(7), Some(9)));
        assert_eq!(command.get_program(), "run");
        assert!(command.get_args().eq(["--", "it"]));
        assert!(asked("--seed 7").is_none());
        assert!(asked("--seed 7 --").is_none());
        assert!(asked("x -- run").is_none());
    }

    #[test]
    fn how_the_program_ends_counts_too() {
        let compared = |program: &str| compare(asked(vec!["--".into(), program.into()]).expect("a command").1, &[]);
        assert_eq!(compared("true"), Ok(()));
        assert_eq!(compared("false"), Err(String::from("the program ends with exit status: 1")));
        assert_eq!(compared("echo"), Err(String::from("the program gives more answers than there are calls")));
    }

    #[test]
    fn edge_calls_come_first_and_then_drawn_ones() {
        for kind in KINDS {
            let [lines, others] = [5, 6].map(|seed| lines_of(kind, seed, 100));
            assert!(lines.len() == 100 && others.len() == 100 && lines != others, "{}", kind.name);
            assert_eq!(lines[0], (kind.edge_lines)(1)[0]);
            assert_eq!(lines[0], others[0]);
        }
    }
}
