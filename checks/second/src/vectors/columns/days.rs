//! The choice of calls on days.

use super::{changing, small, Call, FAR};
use crate::hours::GAP;
use crate::random::Random;
use crate::vectors::made::Made;

/// The hours of a day.
const DAY: usize = 24;

/// All calls on days but those of document 01's numbers and of the longest series.
pub(super) fn calls(random: &mut Random) -> Vec<Call> {
    let mut calls = days_there_and_not();
    calls.extend(midnight());
    calls.extend(days_without_a_reading());
    calls.extend(two_days_damaged());
    calls.extend(gaps_of_days(random));
    calls.extend(drawn(random));
    calls
}

/// Every day that there is.
fn every_day(made: &Made) -> impl Iterator<Item = Call> + '_ {
    (0..made.n.div_ceil(DAY as u64)).map(|day| changing(made, day))
}

/// The table with these pairs given a code that is none, each by its place.
fn broken(made: &Made, places: &[usize]) -> Made {
    places.iter().fold(made.clone(), |made, &place| made.with_code(place, 9))
}

/// Whole days, short ones and days that there are not.
fn days_there_and_not() -> Vec<Call> {
    let falling = |n: i32| (0..n).map(|hour| 30 - hour).collect::<Vec<i32>>();
    let mut calls = Vec::new();
    for n in [1, 23, 24, 25, 49] {
        let made = Made::of(&falling(n));
        calls.extend((0..=made.n / 24 + 1).chain(FAR).map(|day| changing(&made, day)));
    }
    calls
}

/// Readings in some hours around midnight alone: which of them is the latest before the day that begins.
fn midnight() -> Vec<Call> {
    let held = |hours: u32, hour: usize| match hour.checked_sub(22) {
        Some(place @ 0..=3) if hours >> place & 1 == 1 => 40_000 + 100 * (hour * hour) as i32,
        _ => GAP,
    };
    let around = |hours| (0..48).map(|hour| held(hours, hour)).collect::<Vec<i32>>();
    (0..16).flat_map(|hours| every_day(&Made::of(&around(hours))).collect::<Vec<Call>>()).collect()
}

/// A day without a reading, also where the table is damaged elsewhere; a day after it; no reading at all.
fn days_without_a_reading() -> Vec<Call> {
    let gaps: Vec<i32> = (0..49).map(|hour| if (20..48).contains(&hour) { GAP } else { hour }).collect();
    let gaps = Made::of(&gaps);
    let mut calls: Vec<Call> = every_day(&gaps).collect();
    calls.push(changing(&Made::of(&[GAP; 3]), 0));
    calls.extend(every_day(&Made::of(&[GAP; 60])));
    // Of the hours before, the first pair and the last one with a reading are looked at, and none between them.
    calls.extend([0, 2, 9].iter().flat_map(|&place| every_day(&broken(&gaps, &[place])).collect::<Vec<Call>>()));
    // Codes of two readings below empty nodes: nothing is reached of that day.
    let below_empty = (12..24).fold(gaps.clone(), |made, place| made.with_code(place, 0));
    calls.extend(every_day(&below_empty));
    calls.extend(gaps.damaged().iter().take(16).flat_map(|table| [changing(table, 0), changing(table, 2)]));
    calls
}

/// Two days of readings 0 to 47: each pair broken in turn, each node's details, and first and last pairs of both days
/// together, so that it shows which of the two is examined first.
fn two_days_damaged() -> Vec<Call> {
    let made = Made::of(&(0..48).collect::<Vec<i32>>());
    let mut tables: Vec<Made> = (0..DAY).map(|place| broken(&made, &[place])).collect();
    for before in [&[0][..], &[11], &[0, 11]] {
        tables.extend([&[12][..], &[23], &[12, 23], &[17]].map(|day| broken(&made, &[before, day].concat())));
    }
    let details = (1..made.p() / 2).map(|node| made.with_coefficients(2 * node, &[-2_000_001]));
    let calls = tables.iter().flat_map(|table| every_day(table).collect::<Vec<Call>>());
    calls.chain(details.map(|table| changing(&table, 1))).collect()
}

/// Every set of days without a reading among three, of which the last is short, sound and with first and last pairs of
/// days broken; and days long apart.
fn gaps_of_days(random: &mut Random) -> Vec<Call> {
    let mut calls = Vec::new();
    for without in 0..8 {
        let mut readings = small(random, 60);
        let days = readings.chunks_mut(DAY).enumerate();
        days.filter(|(day, _)| without >> day & 1 == 1).for_each(|(_, hours)| hours.fill(GAP));
        let made = Made::of(&readings);
        calls.extend(every_day(&made));
        for places in [&[0][..], &[11], &[12], &[23], &[24], &[0, 24], &[11, 24], &[23, 29], &[12, 29]] {
            calls.extend((1..3).map(|day| changing(&broken(&made, places), day)));
        }
    }
    let mut apart = vec![GAP; 40 * DAY];
    for (hour, grams) in [(5, 300), (20, 310), (721, 350), (722, 340), (936, 333)] {
        apart[hour] = grams;
    }
    let apart = Made::of(&apart);
    for table in [&apart, &broken(&apart, &[2]), &broken(&apart, &[10]), &broken(&apart, &[360])] {
        calls.extend([0, 1, 29, 30, 31, 39].map(|day| changing(table, day)));
    }
    calls
}

/// Drawn series in which whole days may have no reading, as made and changed at one place or at two.
fn drawn(random: &mut Random) -> Vec<Call> {
    let mut calls = Vec::new();
    for _ in 0..40 {
        let n = 25 + random.below(40) as usize;
        let mut readings = small(random, n);
        readings.chunks_mut(DAY).filter(|_| random.once_in(3)).for_each(|day| day.fill(GAP));
        let made = Made::of(&readings);
        let day = 1 + random.below(made.n.div_ceil(DAY as u64) - 1);
        let once = made.damaged_anywhere(random);
        let twice = once.damaged_anywhere(random);
        calls.extend([made, once, twice].iter().map(|table| changing(table, day)));
    }
    calls
}
