//! Compares the proved store with the second program: edge calls first, then drawn ones, a fixed number of each kind. A
//! drawn column brings the columns after it.
//!
//! ```text
//! compare [--seed N] [[--calls] N]
//! ```
//!
//! Ends with 0 if every call gave the same on both sides and every outcome that a call can have occurred, and with 1
//! otherwise: the first difference is printed with its call as a line for `second answer`. Anything else on the command
//! line ends it with 2.

use std::process::ExitCode;

use compare::calls::KINDS;
use compare::command_line::Asked;
use compare::compared::Difference;
use compare::tally::Tally;

const USAGE: &str = "usage: compare [--seed N] [[--calls] N]";

/// The seed, if the command line does not say it.
const SEED: u64 = 16_384;

/// The calls drawn of each kind, if the command line does not say them.
const CALLS: usize = 50_000;

fn main() -> ExitCode {
    let Some(asked) = Asked::of(std::env::args().skip(1)) else {
        eprintln!("{USAGE}");
        return ExitCode::from(2);
    };
    let (seed, calls) = (asked.seed.unwrap_or(SEED), asked.calls.unwrap_or(CALLS));
    println!("seed {seed}, {calls} drawn calls of each kind, edge calls before them");

    let compared: Result<Vec<Tally>, Box<Difference>> = KINDS.iter().map(|kind| (kind.compare)(seed, calls)).collect();
    let tallies = match compared {
        Ok(tallies) => tallies,
        Err(difference) => {
            println!("{difference}");
            return ExitCode::FAILURE;
        }
    };
    let lacking: Vec<String> = tallies.iter().flat_map(Tally::lacking).collect();
    for lack in &lacking {
        println!("{lack}");
    }
    let counted: Vec<String> = tallies.iter().map(Tally::to_string).collect();
    println!("{}; seed {seed}; 0 differences", counted.join("; "));
    if lacking.is_empty() {
        ExitCode::SUCCESS
    } else {
        ExitCode::FAILURE
    }
}
