//! Series as they are drawn and spoilt. What stands at the edges is listed besides.

use second::hours::{GAP, GREATEST_READING};
use second::table::{ONLY_LEFT, ONLY_RIGHT};

use crate::drawing::{Drawing, Topic};
use crate::numbers::{Room, EDGES_OF_N};

/// Numbers that no hour may hold.
#[rustfmt::skip]
pub const NO_READINGS: &[i32] = &[
    GREATEST_READING + 1, -GREATEST_READING - 1, 2_000_000, ONLY_LEFT, ONLY_RIGHT, GAP + 1, -GAP, i32::MAX, i32::MIN,
];

/// The forms of a drawn series.
pub const FORMS: Topic = Topic {
    name: "series",
    drawn: &["mixed", "all gaps", "one reading", "all equal", "alternating", "steps", "only extremes"],
};

/// A series of n hours, often in a form that stands at an edge, of which a note is taken.
pub fn draw_series(random: &mut Drawing, n: usize) -> Vec<i32> {
    let (form, series) = match random.below(12) {
        0 => ("all gaps", vec![GAP; n]),
        1 => ("one reading", draw_one_reading(random, n)),
        2 => ("all equal", vec![draw_reading(random); n]),
        3 => ("alternating", draw_alternating(random, n)),
        4 => ("steps", draw_steps(random, n)),
        5 => {
            let extremes = [-GREATEST_READING, GREATEST_READING];
            ("only extremes", (0..n).map(|_| random.one_of(&extremes)).collect())
        }
        _ => ("mixed", draw_mixed(random, n)),
    };
    random.note(form);
    series
}

/// A reading: small, extreme or any.
fn draw_reading(random: &mut Drawing) -> i32 {
    let any = random.between(-GREATEST_READING, GREATEST_READING);
    let small = random.between(-3, 3);
    random.one_of(&[0, small, -GREATEST_READING, GREATEST_READING, any, any])
}

/// Gaps, and in one hour a reading.
fn draw_one_reading(random: &mut Drawing, n: usize) -> Vec<i32> {
    let mut series = vec![GAP; n];
    if n > 0 {
        let any = random.below(n as u64) as usize;
        series[random.one_of(&[0, n - 1, any, any])] = draw_reading(random);
    }
    series
}

/// Two readings in turns, or a reading and a gap, each for 1, 2, 4 or 8 hours.
fn draw_alternating(random: &mut Drawing, n: usize) -> Vec<i32> {
    let (first, other) = (draw_reading(random), draw_reading(random));
    let second = random.one_of(&[other, other, GAP]);
    let hours = 1 << random.below(4);
    (0..n).map(|hour| [first, second][hour / hours % 2]).collect()
}

/// The same reading for some hours, then another, now and then gaps.
fn draw_steps(random: &mut Drawing, n: usize) -> Vec<i32> {
    let mut series = Vec::with_capacity(n);
    while series.len() < n {
        let hours = 1 + random.below(n as u64 / 3 + 1) as usize;
        let held = if random.once_in(6) { GAP } else { draw_reading(random) };
        series.resize((series.len() + hours).min(n), held);
    }
    series
}

/// With no, few, many or only gaps, single ones or in runs, and with close, far, extreme, equal or slowly drifting
/// readings.
fn draw_mixed(random: &mut Drawing, n: usize) -> Vec<i32> {
    let gaps = random.one_of(&[0, 1, 2, 3, 10, 30, 200]);
    let longest_run = random.one_of(&[1, 1, 2, 5, 40]);
    let (least, greatest) =
        random.one_of(&[(0, 0), (0, 1), (-3, 3), (30_000, 50_000), (-GREATEST_READING, GREATEST_READING)]);
    let readings = random.below(3);
    let mut weight = random.between(30_000, 60_000);
    let mut gaps_left = 0;
    (0..n)
        .map(|_| {
            if gaps_left == 0 && gaps > 0 && random.once_in(gaps) {
                gaps_left = 1 + random.below(longest_run);
            }
            if gaps_left > 0 {
                gaps_left -= 1;
                return GAP;
            }
            weight += random.between(-20, 21);
            match readings {
                0 => random.one_of(&[-GREATEST_READING, GREATEST_READING, 0]),
                1 => weight.clamp(-GREATEST_READING, GREATEST_READING),
                _ => random.between(least, greatest),
            }
        })
        .collect()
}

/// Puts numbers that are no readings into up to three hours.
pub fn spoil(random: &mut Drawing, readings: &mut [i32]) {
    if readings.is_empty() {
        return;
    }
    for _ in 0..1 + random.below(3) {
        let hour = random.below(readings.len() as u64) as usize;
        readings[hour] = if random.once_in(4) { random.draw() as i32 } else { random.one_of(NO_READINGS) };
    }
}

/// Series at the edges, for each n that a series can have.
pub fn edge_series() -> Vec<Vec<i32>> {
    let (low, high) = (-GREATEST_READING, GREATEST_READING);
    let mut series = Vec::new();
    for n in EDGES_OF_N.into_iter().filter(|&n| Room::of_series(n).is_some()) {
        let held: [&dyn Fn(usize) -> i32; 10] = [
            &|_| GAP,
            &|_| 0,
            &|_| low,
            &|hour| if hour % 2 == 0 { low } else { high },
            &|hour| if hour % 2 == 0 { high } else { low },
            &|hour| if hour < n / 2 { low } else { high },
            &|hour| if hour < n.div_ceil(2) { high } else { low },
            &|hour| if hour == 0 { 500 } else { GAP },
            &|hour| if hour == n - 1 { -500 } else { GAP },
            &|hour| hour as i32,
        ];
        series.extend(held.iter().map(|held| (0..n).map(held).collect()));
    }
    series
}

#[cfg(test)]
mod tests {
    use std::collections::BTreeSet;

    use super::*;

    #[test]
    fn series_hold_readings_and_gaps_until_spoilt() {
        let mut random = Drawing::new(1);
        let mut spoilt = 0;
        let mut forms = BTreeSet::new();
        for _ in 0..2_000 {
            let n = 1 + random.below(60) as usize;
            let mut readings = draw_series(&mut random, n);
            assert_eq!(readings.len(), n);
            forms.extend(random.notes());
            let no_reading = |held: &i32| !second::hours::is_reading(*held) && *held != GAP;
            assert!(!readings.iter().any(no_reading));
            spoil(&mut random, &mut readings);
            spoilt += usize::from(readings.iter().any(no_reading));
        }
        assert!(spoilt > 1_900);
        assert_eq!(forms, BTreeSet::from_iter(FORMS.drawn.iter().copied()));
        assert!(NO_READINGS.iter().all(|&held| !second::hours::is_reading(held) && held != GAP));
    }
}
