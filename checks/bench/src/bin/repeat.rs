//! Makes one call on one side so many times: `repeat SIDE CALL TIMES`, side and call by their places in the tables. It
//! is run under callgrind, and the difference of two runs is that of their times, without the start and the set-up.

use std::process::ExitCode;

use bench::work::{Call, Side, Work};

const USAGE: &str = "usage: repeat SIDE CALL TIMES";

fn main() -> ExitCode {
    let numbers: Vec<usize> = std::env::args().skip(1).map_while(|word| word.parse().ok()).collect();
    let &[side, call, times] = &numbers[..] else {
        eprintln!("{USAGE}");
        return ExitCode::from(2);
    };
    let (Some(&side), Some(&call)) = (Side::ALL.get(side), Call::ALL.get(call)) else {
        eprintln!("{USAGE}");
        return ExitCode::from(2);
    };
    let mut work = Work::new();
    // What the call may need.
    let ready = [Call::Make, Call::WriteRecord].into_iter().all(|call| work.run(Side::Fast, call));
    if ready && (0..times).all(|_| work.run(side, call)) {
        ExitCode::SUCCESS
    } else {
        eprintln!("repeat: {} was not taken on the {} side", call.name(), side.name());
        ExitCode::FAILURE
    }
}
