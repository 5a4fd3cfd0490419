//! The change of a day, document 02's "days that add up": on made tables against looks through the hours, and by
//! examples, which show how the document is read.

mod common;

use common::{draw_n, draw_series, held, made, refusal, Made};
use second::hours::GAP;
use second::random::Random;
use second::{day_change, Refusal};

impl Made {
    fn change(&self, day: u64) -> Result<Option<i32>, Refusal> {
        day_change(self.n, &self.coefficients, &self.codes, day)
    }

    /// The changes of all its days.
    fn changes(&self) -> Vec<Option<i32>> {
        (0..self.n.div_ceil(24)).map(|day| self.change(day).expect("a table as it is made")).collect()
    }

    /// With these pairs given a code that is none, each by one of its hours.
    fn broken_at(mut self, hours: &[usize]) -> Made {
        hours.iter().for_each(|hour| self.codes[hour / 2] = 9);
        self
    }
}

/// A series in which often whole days have no reading.
fn draw_days(random: &mut Random, n: u64) -> Vec<i32> {
    let mut readings = draw_series(random, n);
    let without = random.one_of(&[1, 2, 2, 3, 10, 1_000]);
    readings.chunks_mut(24).filter(|_| random.once_in(without)).for_each(|day| day.fill(GAP));
    readings
}

/// The change of a day and the hour of the latest reading before it, by a look through the hours one by one.
fn look_for_change(readings: &[i32], day: u64) -> (Option<i32>, Option<u64>) {
    let of_day: Vec<i32> = (24 * day..24 * day + 24).filter_map(|hour| held(readings, hour)).collect();
    let hour_before = (0..24 * day).rev().find(|&hour| held(readings, hour).is_some());
    let before = hour_before.and_then(|hour| held(readings, hour));
    let change = of_day.last().map(|last| last - before.unwrap_or(of_day[0]));
    (change, hour_before)
}

#[test]
fn changes_are_looks_through_the_hours() {
    let seed = 41;
    let mut random = Random::new(seed);
    let (mut after_a_day, mut after_a_gap, mut none_before, mut no_reading) = (0, 0, 0, 0);
    for _ in 0..8_000 {
        let n = draw_n(&mut random, 200);
        let readings = draw_days(&mut random, n);
        for (day, change) in (0..).zip(made(&readings).changes()) {
            let (expected, hour_before) = look_for_change(&readings, day);
            assert_eq!(change, expected, "seed {seed}, day {day} of {readings:?}");
            match (change, hour_before) {
                (None, _) => no_reading += 1,
                (_, None) => none_before += u64::from(day > 0),
                (_, Some(hour)) if hour / 24 + 1 < day => after_a_gap += 1,
                _ => after_a_day += 1,
            }
        }
    }
    let drawn = [after_a_day, after_a_gap, none_before, no_reading];
    assert!(drawn.iter().all(|&days| days > 500), "{drawn:?}");
}

/// The last reading minus the first, both found in the series itself; 0 with no reading.
fn first_to_last(readings: &[i32]) -> i32 {
    let readings: Vec<i32> = readings.iter().copied().filter(|&held| held != GAP).collect();
    readings.last().map_or(0, |last| last - readings[0])
}

#[test]
fn days_add_up() {
    let seed = 42;
    let mut random = Random::new(seed);
    let long = [16_384, 16_383, 8_760, 8_784, 8_193];
    let mut without = 0;
    for round in 0..4_000 {
        let n = long.get(round).copied().unwrap_or_else(|| draw_n(&mut random, 300));
        let readings = draw_days(&mut random, n);
        let changes = made(&readings).changes();
        let sum: i32 = changes.iter().flatten().sum();
        assert_eq!(sum, first_to_last(&readings), "seed {seed}, {readings:?}");
        without += u64::from(changes.iter().all(Option::is_none));
    }
    assert!(without > 100, "{without} series without a reading");
}

/// Every n of up to four days, and every set of days without a reading: one day short or none.
#[test]
fn days_of_every_length_add_up() {
    for n in 1..=96 {
        for without in 0..16 {
            let of_hour = |hour: i32| if without >> (hour / 24) & 1 == 1 { GAP } else { hour * hour - 70 * hour };
            let readings: Vec<i32> = (0..n).map(of_hour).collect();
            let sum: i32 = made(&readings).changes().iter().flatten().sum();
            assert_eq!(sum, first_to_last(&readings), "n {n}, days without a reading {without:b}");
        }
    }
}

#[test]
fn the_greatest_changes() {
    for (first, last) in [(-1_000_000, 1_000_000), (1_000_000, -1_000_000)] {
        assert_eq!(made(&[first, last]).changes(), [Some(last - first)]);
        let mut two_days = [GAP; 30];
        (two_days[0], two_days[29]) = (first, last);
        assert_eq!(made(&two_days).changes(), [Some(0), Some(last - first)]);
    }
}

/// Hour 24·d is an hour of day d, and hour 24·d − 1 one before it.
#[test]
fn midnight_belongs_to_the_day_that_begins() {
    let mut readings = [GAP; 48];
    (readings[23], readings[24]) = (40_000, 40_500);
    assert_eq!(made(&readings).changes(), [Some(0), Some(500)]);
    readings[47] = 40_900;
    assert_eq!(made(&readings).changes(), [Some(0), Some(900)]);
}

/// The latest reading before a day is one of whatever day. A day without a reading says so, also between others.
#[test]
fn after_a_gap_of_days() {
    let mut readings = [GAP; 24 * 40];
    (readings[5], readings[20]) = (300, 310);
    (readings[24 * 30 + 1], readings[24 * 30 + 2], readings[24 * 39]) = (350, 340, 333);
    let changes = made(&readings).changes();
    let told: Vec<(usize, i32)> = (0..).zip(&changes).filter_map(|(day, change)| Some((day, (*change)?))).collect();
    assert_eq!(told, [(0, 10), (30, 30), (39, -7)]);
}

/// With no reading before, a day's own first counts, also if it is not day 0.
#[test]
fn with_none_earlier() {
    let mut readings = [GAP; 72];
    (readings[30], readings[40]) = (500, 480);
    assert_eq!(made(&readings).changes(), [None, Some(-20), None]);
    readings[40] = GAP;
    assert_eq!(made(&readings).changes(), [None, Some(0), None]);
    assert_eq!(made(&[GAP; 72]).changes(), [None; 3]);
}

/// Two days of readings 0 to 47, whose pairs are nodes 32 to 55.
fn two_days() -> Made {
    made(&(0..48).collect::<Vec<i32>>())
}

/// The hours before are a finished column: the walk to its first reading is examined, though the answer does not need
/// it, and so is that to its last; what lies between the two is not.
#[test]
fn the_hours_before_are_a_finished_column() {
    assert_eq!(two_days().change(1), Ok(Some(24)));
    assert_eq!(two_days().broken_at(&[0]).change(1), Err(refusal(4, 32)));
    assert_eq!(two_days().broken_at(&[22]).change(1), Err(refusal(4, 43)));
    assert_eq!(two_days().broken_at(&[0, 22]).change(1), Err(refusal(4, 32)));
    assert_eq!(two_days().broken_at(&[2, 4, 10, 16, 20]).change(1), Ok(Some(24)));
}

/// They are one column over all of them: of day 2 the midnight after day 0 is nothing that is looked at.
#[test]
fn the_hours_before_are_one_column() {
    let three_days = || made(&(0..72).collect::<Vec<i32>>());
    assert_eq!(three_days().broken_at(&[22, 24]).change(2), Ok(Some(24)));
    assert_eq!(three_days().broken_at(&[0]).change(2), Err(refusal(4, 64)));
    assert_eq!(three_days().broken_at(&[46]).change(2), Err(refusal(4, 87)));
}

#[test]
fn the_day_is_examined_before_the_hours_before_it() {
    assert_eq!(two_days().broken_at(&[0, 24]).change(1), Err(refusal(4, 44)));
    assert_eq!(two_days().broken_at(&[0, 46]).change(1), Err(refusal(4, 55)));
    assert_eq!(two_days().broken_at(&[0, 22, 24, 46]).change(1), Err(refusal(4, 44)));
}

/// Neither for day 0 nor for a day without a reading is anything before it examined.
#[test]
fn where_the_hours_before_are_not_examined() {
    assert_eq!(two_days().broken_at(&[24, 46]).change(0), Ok(Some(23)));
    let mut readings: Vec<i32> = (0..72).collect();
    readings[24..48].fill(GAP);
    let broken = made(&readings).broken_at(&[0, 22]);
    assert_eq!(broken.change(0), Err(refusal(4, 64)));
    assert_eq!(broken.change(1), Ok(None));
    assert_eq!(broken.change(2), Err(refusal(4, 64)));
}

/// Whether a day has a reading is asked of the table as reached by going down. What stands in unsound nodes that are
/// not examined counts for nothing.
#[test]
fn a_reading_is_one_reached_by_going_down() {
    // Below empty nodes stand codes of two readings: nothing is reached of days 0 and 1.
    let mut readings = [GAP; 72];
    readings[50] = 7;
    let mut table = made(&readings);
    table.codes[..24].fill(0);
    assert_eq!(table.changes(), [None, None, Some(0)]);
    // Hours 0 to 15 have a reading by going down, and no code below gives one: the walk to the first meets that.
    let mut table = two_days();
    table.codes[..8].fill(4);
    assert_eq!(table.change(1), Err(refusal(4, 32)));
}
