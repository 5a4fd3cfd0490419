//! The series and the windows that are measured, the same ones at every run.

use second::random::Random;

use crate::words::{DAY, GAP, MOST_HOURS};

/// The hours of the series.
pub const N: usize = MOST_HOURS;
/// The days of the series.
pub const DAYS: usize = N.div_ceil(DAY);
/// The columns of each window.
pub const W: usize = 1_024;
/// So many windows are drawn beside the whole series.
pub const WINDOWS: usize = 50;
/// So many of a hundred hours are gaps.
const GAPS_IN_A_HUNDRED: u64 = 3;

/// A season on the scales: a slow honey flow that comes and goes, bees that leave by day, noise, and gaps.
pub fn season() -> Vec<i32> {
    let mut random = Random::new(16_384);
    let mut weight = 38_000;
    (0..N)
        .map(|hour| {
            let (day, hour_of_day) = (hour / DAY, hour % DAY);
            let flow = [2, 9, 25, 14, -3, -6][day / 20 % 6];
            weight += flow + random.between(-8, 8);
            let away = if (8..19).contains(&hour_of_day) { 600 } else { 0 };
            let noise = random.between(-40, 40);
            if random.below(100) < GAPS_IN_A_HUNDRED {
                GAP
            } else {
                weight - away + noise
            }
        })
        .collect()
}

/// A window: its first hour, and the hour after its last.
pub type Window = (usize, usize);

/// Windows of any hours.
pub fn drawn_windows() -> Vec<Window> {
    let mut random = Random::new(1_024);
    let mut hour = || random.below(N as u64) as usize;
    (0..WINDOWS)
        .map(|_| {
            let (one, other) = (hour(), hour());
            (one.min(other), one.max(other) + 1)
        })
        .collect()
}
