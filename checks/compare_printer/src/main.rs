//! Compares a column printer, run as a program of its own, with the second program's printer, byte for byte.
//!
//! ```text
//! [SEED=N] compare_printer COMMAND [ARGUMENT...]
//! ```
//!
//! COMMAND is the printer, or an emulator with the printer as ARGUMENT. It is run twice on each input: the input is
//! handed to it at once, and in pieces (see `feeding.rs`). A run has to print what the second program prints, to read
//! its whole input, and to end with 0, refused or not. Ends with 0 if every run did and every outcome occurred, and
//! with 1 otherwise. A seed that is no number, and no COMMAND, end it with 2.

mod difference;
mod feeding;
mod inputs;
mod run;

use std::collections::BTreeMap;
use std::process::ExitCode;
use std::time::Instant;

use second::vectors::printer::outcome;

use difference::Difference;
use feeding::Feeding;
use run::Printer;

const USAGE: &str = "usage: [SEED=N] compare_printer COMMAND [ARGUMENT...]";

/// The seed if the environment does not give it.
const USUAL_SEED: u64 = 16_384;

/// What can come of an input.
const OUTCOMES: [&str; 6] = ["taken", "refused 12", "refused 1", "refused 2", "refused 5", "refused 6"];

/// After so many differences no further input is run.
const ENOUGH: usize = 20;

/// The seed that the environment gives, or the usual one.
fn seed(given: Option<String>) -> Option<u64> {
    given.map_or(Some(USUAL_SEED), |text| text.parse().ok())
}

fn main() -> ExitCode {
    let mut arguments = std::env::args_os().skip(1);
    let (Some(seed), Some(command)) = (seed(std::env::var("SEED").ok()), arguments.next()) else {
        eprintln!("{USAGE}");
        return ExitCode::from(2);
    };
    println!("seed {seed}");
    let compared = Compared::all(&Printer::new(command, arguments.collect()), seed);
    compared.show();
    if compared.differences.is_empty() && compared.lacking().is_empty() {
        ExitCode::SUCCESS
    } else {
        ExitCode::FAILURE
    }
}

/// What was run and what came of it.
struct Compared {
    chosen: usize,
    inputs: usize,
    runs: BTreeMap<&'static str, usize>,
    outcomes: BTreeMap<String, usize>,
    differences: Vec<Difference>,
    begin: Instant,
}

impl Compared {
    /// Runs a printer on all inputs.
    fn all(printer: &Printer, seed: u64) -> Compared {
        let inputs = inputs::inputs(seed);
        let mut compared = Compared {
            chosen: inputs.len(),
            inputs: 0,
            runs: BTreeMap::new(),
            outcomes: BTreeMap::new(),
            differences: Vec::new(),
            begin: Instant::now(),
        };
        for (index, input) in inputs.iter().enumerate() {
            if compared.is_enough() {
                break;
            }
            compared.one(printer, input, seed.wrapping_add(index as u64));
        }
        compared
    }

    /// Runs a printer on one input, fed in both ways.
    fn one(&mut self, printer: &Printer, input: &[u8], seed: u64) {
        let expected = second::print(input);
        self.inputs += 1;
        *self.outcomes.entry(outcome(&expected)).or_insert(0) += 1;
        for feeding in [Feeding::AtOnce, Feeding::in_pieces(input, seed)] {
            *self.runs.entry(feeding.name()).or_insert(0) += 1;
            if let Err(what) = printer.run(input, feeding).and_then(|ended| ended.held_against(&expected)) {
                self.differences.push(Difference { input: input.to_vec(), feeding, what });
            }
        }
    }

    /// Whether to stop: there are many differences, or the printer cannot be run or does not end.
    fn is_enough(&self) -> bool {
        self.differences.len() >= ENOUGH || self.differences.iter().any(|difference| difference.what.is_hopeless())
    }

    /// The outcomes that never occurred, if all inputs were run: they would then be badly chosen.
    fn lacking(&self) -> Vec<&str> {
        if self.inputs < self.chosen {
            return Vec::new();
        }
        OUTCOMES.into_iter().filter(|&outcome| !self.outcomes.contains_key(outcome)).collect()
    }

    fn show(&self) {
        for difference in &self.differences {
            println!("{difference}");
        }
        for outcome in self.lacking() {
            println!("no input was {outcome}");
        }
        let runs = |(name, count): (&&str, &usize)| format!("{count} {name}");
        let runs: Vec<String> = self.runs.iter().map(runs).collect();
        let outcomes: Vec<String> =
            OUTCOMES.iter().map(|&outcome| format!("{} {outcome}", self.outcomes.get(outcome).unwrap_or(&0))).collect();
        if self.inputs < self.chosen {
            println!("the other {} inputs were not run", self.chosen - self.inputs);
        }
        println!("{} inputs: {}", self.inputs, outcomes.join(", "));
        println!("runs, each fed: {}; {:.1} s", runs.join(", "), self.begin.elapsed().as_secs_f64());
        println!("{} differences", self.differences.len());
    }
}

#[cfg(test)]
mod tests {
    use super::*;

    #[test]
    fn seeds() {
        assert_eq!(seed(None), Some(USUAL_SEED));
        assert_eq!(seed(Some(String::from("7"))), Some(7));
        assert_eq!(seed(Some(String::from("x"))), None);
        assert_eq!(seed(Some(String::new())), None);
    }

    #[test]
    fn inputs_of_every_outcome() {
        for seed in [1, USUAL_SEED] {
            let printed: Vec<Vec<u8>> = inputs::inputs(seed).iter().map(|input| second::print(input)).collect();
            for name in OUTCOMES {
                let count = printed.iter().filter(|printed| outcome(printed) == name).count();
                assert!(count >= 5, "seed {seed}: {count} {name}");
            }
        }
    }
}
