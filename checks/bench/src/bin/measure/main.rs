//! Measures the proved store beside plain Rust, fast Rust and a scan: `measure PRINTER`, where PRINTER is the program
//! of the proved printer. Prints Markdown: the least and the median time and the instructions of every call.
//!
//! Before anything is timed, every side has to give what the second program gives. Figures are printed and never
//! judged.

mod holding;
mod instructions;
mod printers;
mod tables;
mod times;

use std::io;
use std::path::Path;
use std::process::ExitCode;

use bench::season::{season, DAYS, N, W, WINDOWS};
use bench::words::GAP;
use bench::work::{Call, Side, L};

use instructions::Counter;
use printers::Printers;
use tables::{Figures, Row};

/// All that is measured, as rows of the tables.
fn measure(printer: &Path) -> io::Result<Vec<Row>> {
    let counter = Counter::new()?;
    let printers = Printers::held_against_second(printer, &counter)?;
    let mut works = holding::held_against_second();
    let mut rows = Vec::new();
    for call in Call::ALL {
        let times = times::of_call(call, &mut works);
        let mut row = Row::new(call.name());
        for side in Side::ALL.into_iter().filter(|&side| call.is_on(side)) {
            let units = times::units(call);
            let [least, median] = times[side as usize].least_and_median().map(|time| time / units);
            let instructions = counter.of_call(side, call)?.map(|counted| counted / units);
            row.put(side, Figures { least, median, instructions });
        }
        rows.push(row);
    }
    rows.push(printers.measure(&counter)?);
    Ok(rows)
}

/// Prints how it was measured.
fn explain() {
    let gaps = season().iter().filter(|&&held| held == GAP).count();
    let [hours, columns] = [N, W].map(|number| tables::with_commas(number as u64));
    println!("Nanoseconds a reading, {hours} hours of which {gaps} are gaps; nanoseconds a column, {columns}");
    println!("columns of each window, which is the whole series or one of {WINDOWS} drawn ones, stopped at depth");
    println!("{L}; nanoseconds a day, {DAYS} days; milliseconds a run of the printer, from a file to a pipe; and");
    println!("instructions of the same. A ratio is proved / the side before it. The sides take turns, all but the");
    println!("printers in one process; buffers are made once and not cleared. Before, every side gave what the");
    println!("second program gives.");
}

fn main() -> ExitCode {
    let arguments: Vec<_> = std::env::args_os().skip(1).collect();
    let [printer] = &arguments[..] else {
        eprintln!("usage: measure PRINTER");
        return ExitCode::from(2);
    };
    match measure(Path::new(printer)) {
        Ok(rows) => {
            explain();
            print!("\n{}", tables::shown(&rows));
            ExitCode::SUCCESS
        }
        Err(error) => {
            eprintln!("measure: {error}");
            ExitCode::FAILURE
        }
    }
}
