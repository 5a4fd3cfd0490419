//! The commands of the second program.

use std::io::{self, BufRead, BufReader, BufWriter, Read, Write};
use std::path::Path;
use std::process::ExitCode;

use second::answer::answer;
use second::printer::{print, EXAMPLE};
use second::season;
use second::vectors::{written, Written};

const USAGE: &str = "usage: second print | second answer | second example | second season | second vectors DIR";

fn main() -> ExitCode {
    let arguments: Vec<String> = std::env::args().skip(1).collect();
    let ran = match arguments.iter().map(String::as_str).collect::<Vec<_>>()[..] {
        ["print"] => run_print(),
        ["answer"] => run_answer(),
        ["example"] => run_example(),
        ["season"] => io::stdout().write_all(season::log().as_bytes()),
        ["vectors", crates] => run_vectors(Path::new(crates)),
        _ => {
            eprintln!("{USAGE}");
            return ExitCode::from(2);
        }
    };
    match ran {
        Ok(()) => ExitCode::SUCCESS,
        Err(error) => {
            eprintln!("second: {error}");
            ExitCode::FAILURE
        }
    }
}

/// Standard input to standard output, as the column printer.
fn run_print() -> io::Result<()> {
    let mut input = Vec::new();
    io::stdin().read_to_end(&mut input)?;
    io::stdout().write_all(&print(&input))
}

/// One answer a line. Answers are sent on before more input is waited for.
fn run_answer() -> io::Result<()> {
    let mut input = BufReader::new(io::stdin().lock());
    let mut output = BufWriter::new(io::stdout().lock());
    let mut line = Vec::new();
    while input.read_until(b'\n', &mut line)? > 0 {
        let call = line.strip_suffix(b"\n").unwrap_or(&line);
        writeln!(output, "{}", answer(call))?;
        line.clear();
        if input.buffer().is_empty() {
            output.flush()?;
        }
    }
    output.flush()
}

/// Document 01's printer example: its input, an empty line, and the columns drawn from it.
fn run_example() -> io::Result<()> {
    let mut output = io::stdout();
    writeln!(output, "{EXAMPLE}")?;
    output.write_all(&print(EXAMPLE.as_bytes()))
}

/// The vectors of each program as `stdin` and `stdout` of the folder of its name; how many calls had each outcome goes
/// to standard error.
fn run_vectors(crates: &Path) -> io::Result<()> {
    for Written { program, input, output, outcomes } in written() {
        let folder = crates.join(program);
        std::fs::create_dir_all(&folder)?;
        std::fs::write(folder.join("stdin"), input)?;
        std::fs::write(folder.join("stdout"), output)?;
        for (outcome, count) in outcomes {
            eprintln!("{program}: {outcome}: {count}");
        }
    }
    Ok(())
}
