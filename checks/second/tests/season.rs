//! The sample log of a season: the stored file is what `second season` writes, and what its README says is in it.

use second::hours::{is_reading, GAP};
use second::print;
use second::season::{log, season, FLAT_BATTERY, FLOW, HARVEST, HOURS, SUPER, SWARM};

const STORED: &str = include_str!(concat!(env!("CARGO_MANIFEST_DIR"), "/../../user/samples/season.log"));
const README: &str = include_str!(concat!(env!("CARGO_MANIFEST_DIR"), "/../../user/samples/README.md"));

#[test]
fn the_stored_log_is_the_one_written() {
    assert!(log() == STORED, "write it again with `second season`");
    assert_eq!(STORED.lines().count(), HOURS);
}

/// The low of some hours and their high.
fn low_and_high(hours: &[i32]) -> (i32, i32) {
    let readings = || hours.iter().copied().filter(|&held| held != GAP);
    (readings().min().expect("a reading"), readings().max().expect("a reading"))
}

#[test]
fn what_happens_in_the_season() {
    let hours = season();
    let day_before = |hour: usize| low_and_high(&hours[hour - 24..hour]);
    let day_after = |hour: usize| low_and_high(&hours[hour..hour + 24]);

    let (before, after) = (hours[SWARM - 1], hours[SWARM + 1]);
    assert!(is_reading(before) && is_reading(after));
    assert!((2_200..2_800).contains(&(before - after)), "{before} {after}");

    assert!(day_after(SUPER + 1).1 - day_before(SUPER).1 > 4_500);
    assert!(day_before(FLOW.start).1 < 50_000 && day_before(FLOW.end).0 > 60_000);
    assert!(day_before(HARVEST).0 - day_after(HARVEST).1 > 24_000);

    let gaps: Vec<usize> = (0..HOURS).filter(|&hour| hours[hour] == GAP).collect();
    let single = gaps.iter().filter(|hour| !FLAT_BATTERY.contains(hour)).count();
    assert_eq!(gaps.len() - single, FLAT_BATTERY.len());
    assert!(README.contains(&format!("and {single} single hours are\ngaps")), "{single}");
    for hour in [SWARM, SUPER, FLOW.start, FLOW.end, FLAT_BATTERY.start - 1, FLAT_BATTERY.end, HARVEST] {
        assert!(is_reading(hours[hour]), "{hour}");
    }
}

#[test]
fn the_readme_names_the_hours() {
    for hours in [
        format!("| {SWARM} and {} |", SWARM + 1),
        format!("| {SUPER} |"),
        format!("| {} to {} |", FLOW.start, FLOW.end - 1),
        format!("| {} to {} |", FLAT_BATTERY.start, FLAT_BATTERY.end - 1),
        format!("| {HARVEST} |"),
    ] {
        assert!(README.contains(&hours), "{hours}");
    }
}

#[test]
fn the_log_is_printed() {
    let printed = String::from_utf8(print(format!("0 {HOURS} 100\n{STORED}").as_bytes())).expect("plain text");
    assert_eq!(printed.lines().count(), 101);
    assert!(printed.contains("\n71 - - - - "), "11 July has no reading");
}
