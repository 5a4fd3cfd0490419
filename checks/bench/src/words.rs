//! The words that every side shares: constants, refusals, columns and what they answer.

use std::fmt;
use std::ops::Range;

/// A series has at most this many hours.
pub const MOST_HOURS: usize = 16_384;
/// A day has this many hours, the last of a series perhaps fewer.
pub const DAY: usize = 24;
/// A window is drawn in at most this many columns.
pub const MOST_COLUMNS: usize = 4_096;
/// Readings run from minus this many grams to this many.
pub const GREATEST_READING: i32 = 1_000_000;
/// Details run from minus this many grams to this many.
pub const GREATEST_DETAIL: i32 = 2_000_000;
/// What an hour without a reading holds.
pub const GAP: i32 = 2_000_003;
/// Mark of a node of which only the left half has readings.
pub const ONLY_LEFT: i32 = 2_000_001;
/// Mark of a node of which only the right half has readings.
pub const ONLY_RIGHT: i32 = 2_000_002;
/// Mark of a node of which neither half has readings; root values without a reading hold it too.
pub const NEITHER: i32 = GAP;

/// A refusal: its number in document 01's list, and its place.
#[derive(Clone, Copy, Debug, PartialEq, Eq)]
pub struct Refusal {
    /// The number.
    pub number: u8,
    /// The hour of 2, the node number of 4, the line of 12, and 0 for all others.
    pub place: usize,
}

impl Refusal {
    pub(crate) const SERIES: Refusal = Refusal::without_place(1);
    pub(crate) const SHORT_BUFFER: Refusal = Refusal::without_place(3);
    pub(crate) const WINDOW: Refusal = Refusal::without_place(5);
    pub(crate) const COLUMN: Refusal = Refusal::without_place(6);
    pub(crate) const DEPTH: Refusal = Refusal::without_place(7);
    pub(crate) const CUT_SHORT: Refusal = Refusal::without_place(8);
    pub(crate) const VERSION: Refusal = Refusal::without_place(9);
    pub(crate) const LENGTH_FIELD: Refusal = Refusal::without_place(10);
    pub(crate) const BYTES_AFTER: Refusal = Refusal::without_place(11);

    const fn without_place(number: u8) -> Refusal {
        Refusal { number, place: 0 }
    }

    pub(crate) const fn hour(hour: usize) -> Refusal {
        Refusal { number: 2, place: hour }
    }

    pub(crate) const fn unsound(node_number: usize) -> Refusal {
        Refusal { number: 4, place: node_number }
    }

    /// A bad line of the printer's input, counted from 1.
    pub const fn line(line: usize) -> Refusal {
        Refusal { number: 12, place: line }
    }
}

impl fmt::Display for Refusal {
    fn fmt(&self, f: &mut fmt::Formatter<'_>) -> fmt::Result {
        write!(f, "refused {} at {}", self.number, self.place)
    }
}

/// P, or refusal 1.
pub(crate) fn needed_coefficients(n: usize) -> Result<usize, Refusal> {
    if n == 0 || n > MOST_HOURS {
        return Err(Refusal::SERIES);
    }
    Ok(n.next_power_of_two().max(2))
}

/// A table of P coefficients and P/2 codes.
#[derive(Clone, Copy)]
pub(crate) struct Table<'a> {
    pub n: usize,
    pub coefficients: &'a [i32],
    pub codes: &'a [u8],
}

impl<'a> Table<'a> {
    /// What a lent table needs of its buffers, or refusal 1 or 3.
    pub fn lent(n: usize, coefficients: &'a [i32], codes: &'a [u8]) -> Result<Table<'a>, Refusal> {
        let p = needed_coefficients(n)?;
        if coefficients.len() < p || codes.len() < p / 2 {
            return Err(Refusal::SHORT_BUFFER);
        }
        Ok(Table { n, coefficients: &coefficients[..p], codes: &codes[..p / 2] })
    }

    /// l.
    pub fn levels(&self) -> usize {
        self.coefficients.len().ilog2() as usize
    }
}

/// Low and high of a node that has a reading.
#[derive(Clone, Copy, Debug, PartialEq, Eq)]
pub struct LowHigh {
    /// The least reading.
    pub low: i32,
    /// The greatest reading.
    pub high: i32,
}

/// Column k of the window [a, b) drawn in w columns; any numbers at all.
#[derive(Clone, Copy, Debug, PartialEq, Eq)]
pub struct Column {
    /// The first hour of the window.
    pub a: usize,
    /// The hour after the last of the window.
    pub b: usize,
    /// The number of columns.
    pub w: usize,
    /// The number of this column, from 0.
    pub k: usize,
}

impl Column {
    /// Its hours. Refusals in the order 5, 6.
    pub(crate) fn hours(self, n: usize) -> Result<Range<usize>, Refusal> {
        let Column { a, b, w, k } = self;
        if a >= b || b > n {
            return Err(Refusal::WINDOW);
        }
        if w == 0 || w > MOST_COLUMNS || k >= w {
            return Err(Refusal::COLUMN);
        }
        let length = b - a;
        Ok(a + (k * length).div_ceil(w)..a + ((k + 1) * length).div_ceil(w))
    }
}

/// The hours of a column. Refusals in the order 1, 5, 6.
pub fn edges(n: usize, column: Column) -> Result<Range<usize>, Refusal> {
    needed_coefficients(n)?;
    column.hours(n)
}

/// The hours of a day, those from n on left out, or refusal 5 if none is left.
pub(crate) fn hours_of_day(n: usize, day: usize) -> Result<Range<usize>, Refusal> {
    let first = day.checked_mul(DAY).filter(|&first| first < n).ok_or(Refusal::WINDOW)?;
    Ok(first..n.min(first + DAY))
}

/// The answer of a column stopped at a depth.
#[derive(Clone, Copy, Debug, Default, PartialEq, Eq)]
pub struct Stopped {
    /// The outer range, if present.
    pub outer: Option<LowHigh>,
    /// The inner range, if present.
    pub inner: Option<LowHigh>,
    /// The number of visited nodes.
    pub count: usize,
}

/// A reading with its hour.
#[derive(Clone, Copy, Debug, PartialEq, Eq)]
pub struct Reading {
    /// The hour of the series.
    pub hour: usize,
    /// The reading itself.
    pub grams: i32,
}

/// What a column says of its readings, if it has any.
#[derive(Clone, Copy, Debug, PartialEq, Eq)]
pub struct Summary {
    /// The first reading.
    pub first: Reading,
    /// The last reading.
    pub last: Reading,
    /// The least reading.
    pub low: i32,
    /// The greatest reading.
    pub high: i32,
}

/// An answer without its count; `None` is "no reading".
pub type Answer = Option<Summary>;

/// A finished column.
#[derive(Clone, Copy, Debug, Default, PartialEq, Eq)]
pub struct Finished {
    /// What it answers.
    pub answer: Answer,
    /// The number of nodes visited and walked down.
    pub count: usize,
}
