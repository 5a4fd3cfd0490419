//! The soak: ten million calls of the proved store, or as many as asked for, against the second program. Edge calls of
//! every kind come first, then drawn ones of all kinds in turns.
//!
//! ```text
//! soak [--seed N] [[--calls] N]
//! ```
//!
//! Without a seed it takes a fresh one. The seed is printed first; the same seed and the same number of calls make the
//! same calls. How far it is stands on standard error. It goes on after a difference; the first ten are printed, each
//! with its call as a line for `second answer`. At its end it prints what was called and drawn, and then the number of
//! calls and of differences.
//!
//! Ends with 0 if there is no difference, every outcome that a call can have occurred, and every lent buffer was at
//! times too short, just long enough and longer, and with 1 otherwise. Anything else on the command line ends it
//! with 2.

mod progress;
mod shown;

use std::hash::{BuildHasher, Hasher, RandomState};
use std::process::ExitCode;
use std::thread::available_parallelism;
use std::time::Instant;

use compare::calls::KINDS;
use compare::command_line::Asked;
use compare::soak::{Event, Soak};
use compare::tally::Tally;
use progress::Progress;

const USAGE: &str = "usage: soak [--seed N] [[--calls] N]";

/// The calls, if the command line does not say them.
const CALLS: usize = 10_000_000;

/// A seed that nobody chose.
fn fresh_seed() -> u64 {
    RandomState::new().build_hasher().finish()
}

fn main() -> ExitCode {
    let Some(asked) = Asked::of(std::env::args().skip(1)) else {
        eprintln!("{USAGE}");
        return ExitCode::from(2);
    };
    let seed = asked.seed.unwrap_or_else(fresh_seed);
    let soak = Soak { seed, calls: asked.calls.unwrap_or(CALLS), kinds: KINDS };
    println!("seed {seed}, {} calls", soak.calls);

    let started = Instant::now();
    let mut progress = Progress::of(soak.calls);
    let threads = available_parallelism().map_or(1, usize::from);
    let sum = soak.run(threads, |event| match event {
        Event::SoFar { calls, differences } => progress.show(calls, differences),
        Event::Difference(difference) => {
            progress.clear();
            println!("seed {seed}, {difference}");
        }
    });
    progress.clear();

    print!("{}", shown::tables(sum.tallies()));
    let lacking: Vec<String> = sum.tallies().iter().flat_map(Tally::lacking).collect();
    for lack in &lacking {
        println!("{lack}");
    }
    let (calls, differences, seconds) = (sum.calls(), sum.differences(), started.elapsed().as_secs());
    println!("{calls} calls, {differences} differences, seed {seed}, {seconds} seconds");
    if differences == 0 && lacking.is_empty() {
        ExitCode::SUCCESS
    } else {
        ExitCode::FAILURE
    }
}

#[cfg(test)]
mod tests {
    use super::*;

    #[test]
    fn fresh_seeds_differ() {
        assert_ne!(fresh_seed(), fresh_seed());
    }
}
