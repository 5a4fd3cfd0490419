//! The log of a season: a hive on its scale from 1 May to 8 August, drawn with a fixed seed.

use std::ops::Range;

use crate::hours::GAP;
use crate::printer::hour_lines;
use crate::random::Random;

const SEED: u64 = 2_400;
const DAY: usize = 24;

/// 100 days of hours. Hour 0 begins with 1 May.
pub const HOURS: usize = 100 * DAY;

/// From this hour on, bees are leaving with the old queen: 27 May at noon, two hours long.
pub const SWARM: usize = 26 * DAY + 12;
/// What leaves in each of the two hours, in grams.
const LEAVING: [i32; 2] = [1_700, 800];

/// In this hour a super was put on: 7 June in the evening.
pub const SUPER: usize = 37 * DAY + 18;
const WEIGHT_OF_SUPER: i32 = 4_800;

/// The hours of the great honey flow: 8 June to 2 July.
pub const FLOW: Range<usize> = 38 * DAY..63 * DAY;

/// The hours of the flat battery, all gaps: 10 July in the morning to 12 July in the evening.
pub const FLAT_BATTERY: Range<usize> = 70 * DAY + 6..72 * DAY + 18;

/// In this hour the honey was taken: 1 August in the morning.
pub const HARVEST: usize = 92 * DAY + 10;
const HONEY: i32 = 26_000;

/// Any other hour is a gap once in so many.
const GAP_ONCE_IN: u64 = 180;

/// The bees that are out in each hour of a fine day, in grams.
const OUT: [i32; DAY] =
    [0, 0, 0, 0, 0, 0, 40, 120, 260, 420, 560, 650, 700, 720, 700, 640, 540, 420, 280, 150, 60, 0, 0, 0];

/// The lines of the log, as the printer reads them after line 1.
pub fn log() -> String {
    hour_lines(&season())
}

/// The hours of the season.
pub fn season() -> Vec<i32> {
    let mut random = Random::new(SEED);
    let mut weight = 38_000;
    let mut fine = true;
    let mut hours = Vec::new();
    for hour in 0..HOURS {
        if hour % DAY == 0 {
            fine = !random.once_in(5);
        }
        weight += stored(hour, fine) + moved(hour);
        let out = if fine { OUT[hour % DAY] } else { OUT[hour % DAY] / 6 };
        let read = weight - out + random.between(-25, 25);
        let gap = random.once_in(GAP_ONCE_IN) || FLAT_BATTERY.contains(&hour);
        hours.push(if gap { GAP } else { read });
    }
    hours
}

/// What the bees bring in an hour, less what they eat and dry: they bring it on fine days from 9 to 18 o'clock.
fn stored(hour: usize, fine: bool) -> i32 {
    let brought_a_day = match hour / DAY {
        _ if FLOW.contains(&hour) => 1_700,
        0..20 => 330,
        20..38 => 600,
        _ => 120,
    };
    let by_day = (9..19).contains(&(hour % DAY));
    match (fine, by_day) {
        (true, true) => brought_a_day / 10,
        (false, true) => -6,
        (_, false) => -6 - brought_a_day / 80,
    }
}

/// What else goes in an hour, or is put on.
fn moved(hour: usize) -> i32 {
    match hour {
        SWARM => -LEAVING[0],
        _ if hour == SWARM + 1 => -LEAVING[1],
        SUPER => WEIGHT_OF_SUPER,
        HARVEST => -HONEY,
        _ => 0,
    }
}
