//! The choice of calls on tables.

mod call;

use super::made::{held, mixed, Made, NO_READINGS, SEVEN_HOURS};
use super::GREATEST_NUMBER;
use crate::hours::{Shape, GAP, GREATEST_READING};
use crate::random::Random;
use crate::table::ONLY_LEFT;
use call::{making, one_level, turning_back};

pub use call::Call;

const SEED: u64 = 11;

/// The lengths of which every kind of call is tried: odd ones, and P − 1, P and P + 1 hours.
const LENGTHS: [usize; 13] = [1, 2, 3, 5, 7, 8, 9, 15, 16, 17, 63, 64, 65];

/// All calls, in their order in the text.
pub fn calls() -> Vec<Call> {
    let mut random = Random::new(SEED);
    let mut calls = numbers_to_hold_to();
    calls.extend(bad_lengths());
    for n in LENGTHS {
        let mixed = Made::of(&mixed(&mut random, n));
        calls.extend(mixed.exact());
        calls.extend(Made::of(&vec![GAP; n]).exact());
        calls.extend(Made::of(&extremes(&mut random, n)).exact());
        calls.extend(mixed.roomy());
        calls.extend(mixed.short());
        calls.extend(mixed.with_bad_readings(&mut random));
        calls.extend(mixed.damaged().iter().map(Made::turned_back));
        calls.extend((0..8).map(|_| mixed.damaged_anywhere(&mut random).turned_back()));
    }
    calls.extend(Made::of(&mixed(&mut random, 1_000)).exact());
    calls.extend(long(&mut random));
    calls.extend(levels());
    calls.extend(sizes());
    calls
}

/// Document 01's numbers to hold to: 1 to 4 and 7 made and turned back, 9 and 10 turned back, and the parts of 11 on
/// a reading and on n.
fn numbers_to_hold_to() -> Vec<Call> {
    let greatest = GREATEST_READING;
    let series: [&[i32]; 7] =
        [&[500], &[7, 7], &[7, 9], &[9, 7], &[GAP; 3], &SEVEN_HOURS, &[-greatest, -greatest, greatest, greatest]];
    let mut calls: Vec<Call> = series.iter().flat_map(|series| Made::of(series).exact()).collect();
    calls.push(turning_back(2, &[5, 4], &[0], 2));
    calls.push(turning_back(2, &[5, 5], &[1], 2));
    calls.push(turning_back(4, &[10, 20, -15, 0], &[0, 0], 4));
    calls.push(making(1, &[1_000_001], 2, 1));
    calls.push(making(16_385, &[500], 2, 1));
    calls
}

/// Numbers that are no n, with buffers that hold something and with empty ones.
fn bad_lengths() -> Vec<Call> {
    let mut calls = Vec::new();
    for n in [0, 16_385, 32_768, 65_543, 4_294_967_303] {
        calls.push(making(n, &SEVEN_HOURS, 8, 4));
        calls.push(making(n, &[1_000_001], 0, 0));
        calls.push(turning_back(n, &[5, 4, 0], &[9], 3));
        calls.push(turning_back(n, &[], &[], 0));
    }
    calls
}

/// The longest series: 16,384 hours of any readings, and few grams in 16,383 hours and in 16,384, the latter told to be
/// one hour shorter, so that the last reading comes out past n.
fn long(random: &mut Random) -> Vec<Call> {
    let any = Made::of(&held(random, 16_384, GREATEST_READING));
    let few = [held(random, 16_383, 9), vec![5]].concat();
    let odd = Made::of(&few[1..]);
    [any.exact(), odd.exact(), vec![Made::of(&few).told(16_383).turned_back()]].concat()
}

/// Every level and some that are none, of few hours and of many; coefficients one too few and some too many; numbers
/// that are no n.
fn levels() -> Vec<Call> {
    let mut calls = Vec::new();
    for n in [1, 2, 7, 64, 65] {
        let Shape { p, l, .. } = Shape::of(n).expect("a series of 1 to 16,384 hours");
        let no_level = [l, 13, 14, 64, GREATEST_NUMBER];
        calls.extend((0..l).chain(no_level).map(|j| one_level(n, j, p as usize)));
        calls.extend((0..l).map(|j| one_level(n, j, p as usize - 1)));
        calls.push(one_level(n, 0, p as usize + 3));
        calls.push(one_level(n, 0, 0));
    }
    calls.extend([0, 16_385, GREATEST_NUMBER].map(|n| one_level(n, 0, 8)));
    calls.push(one_level(16_384, 12, 16_384));
    calls
}

/// The sizes for few hours, for numbers of hours around every power of two, and for numbers that are no n.
fn sizes() -> Vec<Call> {
    let around = (6..=14).flat_map(|l: u32| [(1 << l) - 1, 1 << l, (1 << l) + 1]);
    let no_series = [32_768, 65_537, (1 << 32) + 3, GREATEST_NUMBER];
    (0..=50).chain(around).chain(no_series).map(Call::Sizes).collect()
}

/// A series of the greatest and the least reading alone.
fn extremes(random: &mut Random, n: usize) -> Vec<i32> {
    (0..n).map(|_| random.one_of(&[-GREATEST_READING, GREATEST_READING])).collect()
}

/// The calls on one series and its table.
impl Made {
    /// Made and turned back with exactly the buffers needed.
    fn exact(&self) -> Vec<Call> {
        vec![making(self.n, &self.readings, self.p(), self.p() / 2), self.turned_back()]
    }

    fn turned_back(&self) -> Call {
        turning_back(self.n, &self.coefficients, &self.codes, self.n as usize)
    }

    /// Made and turned back with longer buffers, whose further content must not matter and must stay.
    fn roomy(&self) -> Vec<Call> {
        let longer = |buffer: &[i32]| [buffer, &[1_000_001, -5]].concat();
        let codes = [&self.codes[..], &[9, 255]].concat();
        vec![
            making(self.n, &longer(&self.readings), self.p() + 3, self.p() / 2 + 2),
            turning_back(self.n, &longer(&self.coefficients), &codes, self.p() + 1),
        ]
    }

    /// Each buffer one too short, in making with a bad reading too, which is not looked at.
    fn short(&self) -> Vec<Call> {
        let (n, p) = (self.n as usize, self.p());
        let bad = [&[1_000_001], &self.readings[1..]].concat();
        vec![
            making(self.n, &self.readings[..n - 1], p, p / 2),
            making(self.n, &bad, p - 1, p / 2),
            making(self.n, &self.readings, p, p / 2 - 1),
            turning_back(self.n, &self.coefficients[..p - 1], &self.codes, n),
            turning_back(self.n, &self.coefficients, &self.codes[..p / 2 - 1], n),
            turning_back(self.n, &self.coefficients, &self.codes, n - 1),
        ]
    }

    /// An hour that holds neither reading nor gap, and often the last hour too: the least such hour is told.
    fn with_bad_readings(&self, random: &mut Random) -> Vec<Call> {
        let bad_reading = |bad: i32| {
            let mut readings = self.readings.clone();
            if random.once_in(2) {
                readings[self.n as usize - 1] = ONLY_LEFT;
            }
            readings[random.below(self.n) as usize] = bad;
            making(self.n, &readings, self.p(), self.p() / 2)
        };
        NO_READINGS.map(bad_reading).to_vec()
    }
}
