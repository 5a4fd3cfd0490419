//! Numbers of hours, the room that each needs, and the lengths and the content of lent buffers, as they are drawn. What
//! stands at the edges is listed besides, so that every run has it.

use second::hours::{GAP, GREATEST_READING, MOST_HOURS};
use second::table::{ONLY_LEFT, ONLY_RIGHT};
use second::Shape;

use crate::drawing::{Drawing, Topic};
use crate::lent::Held;

/// The most hours of a series.
pub const MOST: usize = MOST_HOURS as usize;

/// Numbers of hours at the edges, from 0 to beyond every series. 2^32 + 3 is 3 to who keeps 32 bits of it.
#[rustfmt::skip]
pub const EDGES_OF_N: [usize; 28] = [
    0, 1, 2, 3, 4, 5, 7, 8, 9, 15, 16, 17, 63, 64, 65, 1_023, 1_024, 1_025, 8_192, 8_193,
    MOST - 1, MOST, MOST + 1, 2 * MOST, (1 << 16) + 3, (1 << 32) + 3, 1 << 63, usize::MAX,
];

/// Every P, which is also the most hours that it serves.
pub const EVERY_P: [usize; 14] = [2, 4, 8, 16, 32, 64, 128, 256, 512, 1_024, 2_048, 4_096, 8_192, MOST];

/// What a call needs of each buffer.
#[derive(Clone, Copy, Debug, PartialEq, Eq)]
pub struct Room {
    /// Readings to be read, or hours to be written.
    pub hours: usize,
    /// P.
    pub coefficients: usize,
    /// P/2.
    pub codes: usize,
}

impl Room {
    /// The room for a series of n hours. If no series has so many, room for three.
    pub fn of(n: usize) -> Room {
        Room::of_series(n).unwrap_or(Room { hours: 3, coefficients: 4, codes: 2 })
    }

    /// The same, but for a few hours too many there may be as much room as they would need.
    pub fn draw(random: &mut Drawing, n: usize) -> Room {
        if (MOST + 1..=2 * MOST).contains(&n) && random.once_in(8) {
            Room { hours: n, coefficients: 2 * MOST, codes: MOST }
        } else {
            Room::of(n)
        }
    }

    /// Bytes of the whole record.
    pub fn record(self) -> usize {
        7 + 3 * self.coefficients + self.codes
    }

    /// The room for a series of n hours, if one has so many.
    pub fn of_series(n: usize) -> Option<Room> {
        let Shape { n, p, .. } = Shape::of(n as u64).ok()?;
        Some(Room { hours: n as usize, coefficients: p as usize, codes: p as usize / 2 })
    }
}

/// The sorts of drawn numbers of hours. One that fits several is of the first.
pub const SORTS_OF_N: Topic = Topic {
    name: "n",
    drawn: &["0", "1", "2", "16384", "16385", "2^63", "2^64 - 1", "too many", "2^j", "2^j - 1 or + 1", "other"],
};

fn sort_of_n(n: usize) -> &'static str {
    match n {
        0 => "0",
        1 => "1",
        2 => "2",
        MOST => "16384",
        usize::MAX => "2^64 - 1",
        _ if n == MOST + 1 => "16385",
        _ if n == 1 << 63 => "2^63",
        _ if n > MOST => "too many",
        _ if n.is_power_of_two() => "2^j",
        _ if (n - 1).is_power_of_two() || (n + 1).is_power_of_two() => "2^j - 1 or + 1",
        _ => "other",
    }
}

/// A number of hours, of which a note is taken.
pub fn draw_n(random: &mut Drawing) -> usize {
    let n = draw_any_n(random);
    random.note(sort_of_n(n));
    n
}

/// A number of hours that are more than a day and at most five, mostly odd, of which a note is taken.
pub fn draw_n_of_days(random: &mut Drawing) -> usize {
    let n = 25 + random.below(96) as usize;
    let n = random.one_of(&[n, n / 2 * 2 + 1]);
    random.note(sort_of_n(n));
    n
}

/// A number of hours: mostly few, often close to a power of two, seldom many, sometimes none or too many.
pub fn draw_any_n(random: &mut Drawing) -> usize {
    let around = |power: u64, by: u64| (1 << power) + by as usize - 1;
    let n = match random.below(100) {
        0..=3 => return draw_no_series(random),
        4 => {
            let many = 1 + random.below(MOST_HOURS) as usize;
            random.one_of(&[MOST, MOST - 1, MOST / 2, MOST / 2 + 1, many])
        }
        5 => around(8 + random.below(7), random.below(3)),
        6 | 7 => 1 + random.below(1_200) as usize,
        8..=39 => around(random.below(8), random.below(3)),
        40..=69 => 1 + random.below(20) as usize,
        _ => 1 + random.below(150) as usize,
    };
    n.max(1)
}

/// A number of hours that no series has.
fn draw_no_series(random: &mut Drawing) -> usize {
    match random.below(8) {
        0 => 0,
        1 => MOST + 1,
        2 => 1 << 63,
        3 => usize::MAX,
        4 => MOST + 2 + random.below(20) as usize,
        5 => random.one_of(&[2 * MOST, 2 * MOST + 1, 1 << 16, 1 << 32, usize::MAX - 1]),
        _ => (1 << random.one_of(&[16, 31, 32, 63])) + random.below(20) as usize,
    }
}

/// Lengths of a buffer of which so much is needed: none, just too short, just long enough, longer.
pub const EDGE_LENGTHS: [fn(usize) -> usize; 5] =
    [|_| 0, |needed| needed.saturating_sub(1), |needed| needed, |needed| needed + 1, |needed| needed + needed / 2 + 2];

/// The length of a lent buffer of which so much is needed: mostly that, else too short or longer.
pub fn draw_lent_length(random: &mut Drawing, needed: usize) -> usize {
    match random.below(20) {
        0 => needed.saturating_sub(1),
        1 => random.below(needed as u64 + 1) as usize,
        2..=4 => needed + 1 + random.below(3) as usize,
        5 => needed + random.below(needed as u64 + 2) as usize,
        _ => needed,
    }
}

/// Lends a buffer that holds just what is needed: mostly as it is, else cut short, or longer with anything after it.
pub fn draw_resized<T: Drawn>(random: &mut Drawing, held: &mut Vec<T>) {
    let needed = held.len();
    let lent = draw_lent_length(random, needed);
    held.truncate(lent);
    held.extend(draw_held::<T>(random, lent.saturating_sub(needed)));
}

/// What a buffer holds before it is written, or beyond what is read: one thing throughout, or anything.
pub fn draw_held<T: Drawn>(random: &mut Drawing, length: usize) -> Vec<T> {
    let everywhere = random.once_in(2).then(|| T::draw(random));
    (0..length).map(|_| everywhere.unwrap_or_else(|| T::draw(random))).collect()
}

/// What a drawn buffer holds.
pub trait Drawn: Held {
    /// Something that a table, a series, a record or a log may hold, or anything.
    fn draw(random: &mut Drawing) -> Self;
}

impl Drawn for i32 {
    fn draw(random: &mut Drawing) -> i32 {
        match random.below(4) {
            0 => random.one_of(&[0, GAP, ONLY_LEFT, ONLY_RIGHT, GREATEST_READING]),
            1 => random.draw() as i32,
            _ => random.between(-9, 9),
        }
    }
}

impl Drawn for u16 {
    fn draw(random: &mut Drawing) -> u16 {
        random.draw() as u16
    }
}

impl Drawn for u8 {
    fn draw(random: &mut Drawing) -> u8 {
        random.draw() as u8
    }
}
