//! Times: every side makes a call in turn, over and over.

use std::hint::black_box;
use std::time::{Duration, Instant};

use bench::season::{DAYS, N, W, WINDOWS};
use bench::work::{Call, Side, Work};

/// How long each call is measured, and the least number of rounds that count.
const MEASURED: Duration = Duration::from_secs(2);
const LEAST_ROUNDS: usize = 50;
/// Rounds before the first that counts.
const WARMING_UP: usize = 5;

/// The times of one side.
#[derive(Clone, Default)]
pub struct Times(Vec<Duration>);

impl Times {
    /// Puts the time of one more run.
    pub fn put(&mut self, time: Duration) {
        self.0.push(time);
    }

    /// Least and median, in nanoseconds.
    pub fn least_and_median(&self) -> [f64; 2] {
        let mut times = self.0.clone();
        times.sort_unstable();
        [times[0], times[times.len() / 2]].map(|time| time.as_nanos() as f64)
    }
}

/// Readings, columns or days of one run of a call.
pub fn units(call: Call) -> f64 {
    let units = match call {
        Call::Make | Call::TurnBack | Call::WriteRecord | Call::ReadRecord => N,
        Call::FinishedWhole | Call::StoppedWhole => W,
        Call::FinishedDrawn | Call::StoppedDrawn => WINDOWS * W,
        Call::DayChange => DAYS,
    };
    units as f64
}

/// The times of a call on each side that has it.
pub fn of_call(call: Call, works: &mut [Work; 4]) -> [Times; 4] {
    let mut times: [Times; 4] = Default::default();
    let begin = Instant::now();
    let mut round = 0;
    while round < WARMING_UP + LEAST_ROUNDS || begin.elapsed() < MEASURED {
        // The sides take turns in being first.
        for turn in 0..Side::ALL.len() {
            let side = Side::ALL[(round + turn) % Side::ALL.len()];
            if !call.is_on(side) {
                continue;
            }
            let before = Instant::now();
            let taken = black_box(works[side as usize].run(side, call));
            let time = before.elapsed();
            assert!(taken, "{} is not taken on the {} side", call.name(), side.name());
            if round >= WARMING_UP {
                times[side as usize].put(time);
            }
        }
        round += 1;
    }
    times
}
