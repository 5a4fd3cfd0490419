//! Series, and their tables, which may be damaged: what the calls on tables and on records are chosen from.

use crate::hours::{Shape, GAP, GREATEST_READING};
use crate::random::Random;
use crate::table::{make, NEITHER, ONLY_LEFT, ONLY_RIGHT};

/// Numbers that are neither a reading nor a gap.
pub(super) const NO_READINGS: [i32; 8] =
    [1_000_001, -1_000_001, ONLY_LEFT, ONLY_RIGHT, 2_000_004, -2_000_003, i32::MAX, -i32::MAX];

/// The printer's seven hours.
pub(super) const SEVEN_HOURS: [i32; 7] = [41200, 41350, GAP, 40900, 32760, 32790, GAP];

/// A series of readings of every size with gaps among them.
pub(super) fn mixed(random: &mut Random, n: usize) -> Vec<i32> {
    let greatest = random.one_of(&[3, 50_000, GREATEST_READING]);
    (0..n).map(|_| if random.once_in(4) { GAP } else { random.between(-greatest, greatest) }).collect()
}

/// A long series of any readings and gaps, in which an hour mostly holds what the one before it held, so that its table
/// and its record are short as text: stretches of one to three hours come as often as long ones.
pub(super) fn held(random: &mut Random, n: usize, greatest: i32) -> Vec<i32> {
    let mut hours = Vec::new();
    while hours.len() < n {
        let hour = if random.once_in(6) { GAP } else { random.between(-greatest, greatest) };
        let stretch = random.one_of(&[1, 1, 2, 3, 40, 200]);
        hours.resize(n.min(hours.len() + stretch), hour);
    }
    hours
}

/// A series with its table, which may be damaged.
#[derive(Clone)]
pub(super) struct Made {
    pub(super) n: u64,
    pub(super) readings: Vec<i32>,
    pub(super) coefficients: Vec<i32>,
    pub(super) codes: Vec<u8>,
}

impl Made {
    pub(super) fn of(readings: &[i32]) -> Made {
        let n = readings.len() as u64;
        let p = Shape::of(n).expect("a series of 1 to 16,384 hours").p as usize;
        let (mut coefficients, mut codes) = (vec![0; p], vec![0; p / 2]);
        make(n, readings, &mut coefficients, &mut codes).expect("readings and gaps");
        Made { n, readings: readings.to_vec(), coefficients, codes }
    }

    pub(super) fn p(&self) -> usize {
        self.coefficients.len()
    }

    /// The same table, told to be of n hours.
    pub(super) fn told(&self, n: u64) -> Made {
        Made { n, ..self.clone() }
    }

    /// The table with these coefficients at a place and after it.
    pub(super) fn with_coefficients(&self, place: usize, numbers: &[i32]) -> Made {
        let mut damaged = self.clone();
        damaged.coefficients[place..place + numbers.len()].copy_from_slice(numbers);
        damaged
    }

    /// The table with this code at a place.
    pub(super) fn with_code(&self, place: usize, code: u8) -> Made {
        let mut damaged = self.clone();
        damaged.codes[place] = code;
        damaged
    }

    /// Damaged in each way there is: root values, details of the first and the last node, a lone mark, codes, and n
    /// one less, so that the last reading may come out past it.
    pub(super) fn damaged(&self) -> Vec<Made> {
        let roots = [[5, 4], [NEITHER, 5], [5, NEITHER], [1_000_001, 1_000_001], [NEITHER; 2], [0, 0]];
        let details = [[-2_000_001, 0], [0, 2_000_004], [ONLY_LEFT; 2], [ONLY_RIGHT; 2], [NEITHER; 2], [2_000_000; 2]];
        let marks = [ONLY_LEFT, ONLY_RIGHT, NEITHER];
        let mut tables: Vec<Made> = roots.iter().map(|root| self.with_coefficients(0, root)).collect();
        if self.p() > 2 {
            for place in [2, self.p() - 2] {
                tables.extend(details.iter().map(|details| self.with_coefficients(place, details)));
                tables.extend(marks.map(|mark| self.with_coefficients(place, &[mark])));
                tables.extend(marks.map(|mark| self.with_coefficients(place + 1, &[mark])));
            }
        }
        for place in [0, self.codes.len() - 1] {
            tables.extend([0, 1, 2, 3, 4, 5, 255].map(|code| self.with_code(place, code)));
        }
        if self.p() > 2 || self.n == 2 {
            tables.push(self.told(self.n - 1));
        }
        tables
    }

    /// One coefficient or one code changed, to a number close by or to any that means something.
    pub(super) fn damaged_anywhere(&self, random: &mut Random) -> Made {
        let place = random.below(self.p() as u64) as usize;
        let close = self.coefficients[place].wrapping_add(random.one_of(&[-2, -1, 1, 2]));
        match random.below(4) {
            0 => self.with_code(place / 2, random.one_of(&[0, 1, 2, 3, 4, 5])),
            1 => self.with_coefficients(place, &[random.one_of(&NO_READINGS)]),
            2 => self.with_coefficients(place, &[-self.coefficients[place]]),
            _ => self.with_coefficients(place, &[close]),
        }
    }
}
