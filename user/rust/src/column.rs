//! Columns: their edges, and answers stopped at a depth.

use core::ops::Range;

use crate::linked;
use crate::refusal::{Refusal, Told};
use crate::table::GAP;

/// The most columns of a window, the largest w.
///
/// ```
/// use sagivelume::{Column, Refusal, MOST_COLUMNS};
///
/// let first_of = |w| Column { a: 0, b: 7, w, k: 0 };
/// assert!(sagivelume::edges(7, first_of(MOST_COLUMNS)).is_ok());
///
/// let refused = sagivelume::edges(7, first_of(MOST_COLUMNS + 1));
/// assert_eq!(refused, Err(Refusal { number: Refusal::BAD_COLUMN, place: 0 }));
/// ```
pub const MOST_COLUMNS: usize = 4_096;

/// Column k of the window [a, b) drawn in w columns. Nothing is checked until a call takes it.
///
/// With L = b − a it has the hours from a + ceil(k·L / w) up to but not including a + ceil((k+1)·L / w).
///
/// ```
/// use sagivelume::Column;
///
/// let whole_series_in_one = Column { a: 0, b: 7, w: 1, k: 0 };
/// assert_eq!(sagivelume::edges(7, whole_series_in_one)?, 0..7);
/// # Ok::<(), sagivelume::Refusal>(())
/// ```
#[derive(Clone, Copy, Debug, PartialEq, Eq)]
pub struct Column {
    /// The first hour of the window.
    pub a: usize,
    /// The hour after the last of the window.
    pub b: usize,
    /// The number of columns.
    pub w: usize,
    /// The number of this column, from 0.
    pub k: usize,
}

/// The hours of a column of a series of n hours. With more columns than hours some columns have none.
///
/// [Refusals](Refusal) 1, 5, 6.
///
/// ```
/// use sagivelume::{Column, Refusal};
///
/// let third = |k| Column { a: 0, b: 64, w: 3, k };
/// assert_eq!(sagivelume::edges(64, third(0))?, 0..22);
/// assert_eq!(sagivelume::edges(64, third(1))?, 22..43);
/// assert_eq!(sagivelume::edges(64, third(2))?, 43..64);
/// assert_eq!(sagivelume::edges(64, third(3)), Err(Refusal { number: Refusal::BAD_COLUMN, place: 0 }));
///
/// assert!(sagivelume::edges(2, Column { a: 0, b: 2, w: 4, k: 1 })?.is_empty());
/// # Ok::<(), Refusal>(())
/// ```
pub fn edges(n: usize, column: Column) -> Result<Range<usize>, Refusal> {
    linked::edges(n, column).taken()
}

/// A range: the least low and the greatest high of some nodes.
#[derive(Clone, Copy, Debug, PartialEq, Eq)]
pub struct LowHigh {
    /// The least low.
    pub low: i32,
    /// The greatest high.
    pub high: i32,
}

/// The answer of a column stopped at a depth. That of a column without an hour has no range and count 0.
#[derive(Clone, Copy, Debug, PartialEq, Eq)]
pub struct Stopped {
    /// Over the visited, unopened nodes that share an hour with the column, if one of them has a reading. In the table
    /// of a series every reading of the column is in it: it is what the column may hold.
    pub outer: Option<LowHigh>,
    /// The same over those wholly inside it. In the table of a series it lies between the lowest and the highest
    /// reading of the column: it is what the column holds for certain. At depth l it is the outer range.
    pub inner: Option<LowHigh>,
    /// The number of visited nodes: at depth d at most 4·d − 1, and 1 at depth 0.
    pub count: usize,
}

/// The answer of a column at depth d, 0 to l: only nodes of a level below d are opened.
///
/// Needs P coefficients and P/2 codes. [Refusals](Refusal) 1, 3, 5, 6, 7, 4. Examined are the root values and then the
/// opened nodes; for a column without an hour nothing is.
///
/// ```
/// use sagivelume::{Column, LowHigh, Refusal};
///
/// let coefficients = [32_760, 41_350, 8_140, 8_560, 300, 450, 2_000_001, 2_000_001];
/// let codes = [1, 3, 1, 4];
/// let column = Column { a: 0, b: 7, w: 3, k: 0 };
///
/// let coarse = sagivelume::stopped(7, &coefficients, &codes, column, 0)?;
/// assert_eq!(coarse.outer, Some(LowHigh { low: 32_760, high: 41_350 }));
/// assert_eq!((coarse.inner, coarse.count), (None, 1));
///
/// let finer = sagivelume::stopped(7, &coefficients, &codes, column, 2)?;
/// assert_eq!(finer.outer, Some(LowHigh { low: 40_900, high: 41_350 }));
/// assert_eq!(finer.inner, Some(LowHigh { low: 41_200, high: 41_350 }));
///
/// let too_deep = sagivelume::stopped(7, &coefficients, &codes, column, 4);
/// assert_eq!(too_deep, Err(Refusal { number: Refusal::TOO_DEEP, place: 0 }));
/// # Ok::<(), Refusal>(())
/// ```
pub fn stopped(n: usize, coefficients: &[i32], codes: &[u8], column: Column, d: usize) -> Result<Stopped, Refusal> {
    linked::stopped(n, coefficients, codes, column, d).taken()
}

/// How asking for a column's edges ended, with its first hour and the hour after its last.
#[repr(C)]
pub(crate) struct ToldColumn {
    number: usize,
    place: usize,
    from: usize,
    upto: usize,
}

impl ToldColumn {
    /// The hours of the column, or the refusal.
    pub(crate) fn taken(self) -> Result<Range<usize>, Refusal> {
        let ToldColumn { number, place, from, upto } = self;
        Told { number, place }.taken().map(|()| from..upto)
    }
}

/// How a column stopped at a depth ended, with its ranges and its count. An absent range holds the gap mark twice.
#[repr(C)]
pub(crate) struct ToldRanges {
    number: usize,
    place: usize,
    outer_low: i32,
    outer_high: i32,
    inner_low: i32,
    inner_high: i32,
    count: usize,
}

impl ToldRanges {
    /// Ranges and count, or the refusal.
    pub(crate) fn taken(self) -> Result<Stopped, Refusal> {
        let ToldRanges { number, place, count, .. } = self;
        Told { number, place }.taken().map(|()| Stopped {
            outer: range(self.outer_low, self.outer_high),
            inner: range(self.inner_low, self.inner_high),
            count,
        })
    }
}

/// A range, `None` if it is absent.
fn range(low: i32, high: i32) -> Option<LowHigh> {
    ((low, high) != (GAP, GAP)).then_some(LowHigh { low, high })
}
