//! Printers as programs: the time from starting one to the end of what it prints.

use std::fs::{self, File};
use std::io::{self, Read};
use std::path::{Path, PathBuf};
use std::process::{Command, Stdio};
use std::time::{Duration, Instant};

use bench::season::{season, N, W};
use bench::work::Side;
use second::printer::hour_lines;

use crate::instructions::{beside, Counter};
use crate::tables::{Figures, Row};
use crate::times::Times;

/// Runs of each before the first that counts, and those that count.
const WARMING_UP: usize = 10;
const MEASURED: usize = 200;

/// Runs a printer on a file and gives what it printed, and the time until it had ended.
fn run(printer: &Path, input: &Path) -> io::Result<(Vec<u8>, Duration)> {
    let input = File::open(input)?;
    let mut printed = Vec::with_capacity(1 << 20);
    let error = |what: String| io::Error::other(format!("{}: {what}", printer.display()));
    let begin = Instant::now();
    let started = Command::new(printer).stdin(input).stdout(Stdio::piped()).spawn();
    let mut child = started.map_err(|cause| error(cause.to_string()))?;
    child.stdout.take().expect("its output is a pipe of ours").read_to_end(&mut printed)?;
    let status = child.wait()?;
    let time = begin.elapsed();
    if !status.success() {
        return Err(error(format!("ended with {status}")));
    }
    Ok((printed, time))
}

/// The printers of the sides, and the file that they read.
pub struct Printers {
    programs: [PathBuf; 3],
    input: PathBuf,
}

impl Printers {
    /// The proved printer beside the plain and the fast one, which were built beside this program, after each was held
    /// against the second program.
    pub fn held_against_second(proved: &Path, counter: &Counter) -> io::Result<Printers> {
        let programs = [proved.to_path_buf(), beside("plain_printer")?, beside("fast_printer")?];
        let input = counter.file("season");
        let text = format!("0 {N} {W}\n{}", hour_lines(&season()));
        fs::write(&input, &text)?;
        let expected = second::print(text.as_bytes());
        for printer in &programs {
            if run(printer, &input)?.0 != expected {
                let what = "does not print what the second program prints";
                return Err(io::Error::other(format!("{}: {what}", printer.display())));
            }
        }
        Ok(Printers { programs, input })
    }

    /// Measures them, in turns.
    pub fn measure(&self, counter: &Counter) -> io::Result<Row> {
        let mut times: [Times; 3] = Default::default();
        for round in 0..WARMING_UP + MEASURED {
            // They take turns in being first.
            for turn in 0..times.len() {
                let side = (round + turn) % times.len();
                let (_, time) = run(&self.programs[side], &self.input)?;
                if round >= WARMING_UP {
                    times[side].put(time);
                }
            }
        }
        let mut row = Row::new("printer");
        for (side, times) in Side::STORES.into_iter().zip(times) {
            let [least, median] = times.least_and_median().map(|nanoseconds| nanoseconds / 1e6);
            let instructions = counter.of_program(&self.programs[side as usize], &self.input)?;
            row.put(side, Figures { least, median, instructions });
        }
        Ok(row)
    }
}
