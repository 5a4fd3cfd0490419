//! Finished columns, joining two answers, and the day change.

use crate::column::Column;
use crate::linked;
use crate::refusal::{Refusal, Told};

/// A reading with its hour.
#[derive(Clone, Copy, Debug, PartialEq, Eq)]
pub struct Reading {
    /// The hour of the series, not of the window.
    pub hour: usize,
    /// The reading itself.
    pub grams: i32,
}

/// What a column says of its readings, if it has any.
#[derive(Clone, Copy, Debug, PartialEq, Eq)]
pub struct Summary {
    /// The first reading.
    pub first: Reading,
    /// The last reading.
    pub last: Reading,
    /// The least reading.
    pub low: i32,
    /// The greatest reading.
    pub high: i32,
}

/// An answer without its count; `None` is "no reading".
pub type Answer = Option<Summary>;

/// A finished column. One without an hour has no reading and count 0.
#[derive(Clone, Copy, Debug, PartialEq, Eq)]
pub struct Finished {
    /// What it answers.
    pub answer: Answer,
    /// The number of nodes visited and walked down.
    pub count: usize,
}

/// The finished answer of a column: first and last reading, each with its hour, low, high and count.
///
/// Needs P coefficients and P/2 codes. [Refusals](Refusal) 1, 3, 5, 6, 4. Examined are the root values, then the opened
/// nodes, then those on the walk to the first reading and on that to the last; for a column without an hour nothing is.
///
/// ```
/// use sagivelume::{Column, Reading};
///
/// let coefficients = [32_760, 41_350, 8_140, 8_560, 300, 450, 2_000_001, 2_000_001];
/// let codes = [1, 3, 1, 4];
/// let column = Column { a: 0, b: 7, w: 3, k: 1 };
///
/// let finished = sagivelume::finished(7, &coefficients, &codes, column)?;
/// let summary = finished.answer.expect("readings in hours 3 and 4");
/// assert_eq!(summary.first, Reading { hour: 3, grams: 40_900 });
/// assert_eq!(summary.last, Reading { hour: 4, grams: 32_760 });
/// assert_eq!((summary.low, summary.high, finished.count), (32_760, 40_900, 11));
///
/// let hour_6 = Column { a: 6, b: 7, w: 1, k: 0 };
/// assert_eq!(sagivelume::finished(7, &coefficients, &codes, hour_6)?.answer, None);
/// # Ok::<(), sagivelume::Refusal>(())
/// ```
pub fn finished(n: usize, coefficients: &[i32], codes: &[u8], column: Column) -> Result<Finished, Refusal> {
    linked::finished(n, coefficients, codes, column).taken()
}

/// Joins the answers of two columns that follow each other: first from the left, last from the right, lesser low,
/// greater high. "No reading" joined with an answer gives that answer. Any two answers are taken.
///
/// ```
/// use sagivelume::{Reading, Summary};
///
/// let at = |hour, grams| Reading { hour, grams };
/// let left = Summary { first: at(0, 41_200), last: at(1, 41_350), low: 41_200, high: 41_350 };
/// let right = Summary { first: at(3, 40_900), last: at(4, 32_760), low: 32_760, high: 40_900 };
/// let both = Summary { first: at(0, 41_200), last: at(4, 32_760), low: 32_760, high: 41_350 };
/// assert_eq!(sagivelume::join(Some(left), Some(right)), Some(both));
/// assert_eq!(sagivelume::join(None, Some(right)), Some(right));
/// assert_eq!(sagivelume::join(None, None), None);
/// ```
pub fn join(left: Answer, right: Answer) -> Answer {
    linked::join(left, right).answer()
}

/// The change of a day, which has the hours 24·d to 24·d + 23, cut at n: its last reading minus the latest reading
/// before that day, of whatever day; with none earlier, minus its own first; `None` for "no reading". The changes of
/// all days add up to the last reading of the series minus its first.
///
/// Needs P coefficients and P/2 codes. [Refusals](Refusal) 1, 3, 5, 4, the last as for a finished column over the day's
/// hours, and then, if it has a reading, as for one over all hours before it.
///
/// ```
/// use sagivelume::{Refusal, GAP};
///
/// let coefficients = [32_760, 41_350, 8_140, 8_560, 300, 450, 2_000_001, 2_000_001];
/// assert_eq!(sagivelume::day_change(7, &coefficients, &[1, 3, 1, 4], 0)?, Some(-8_410));
/// assert_eq!(sagivelume::day_change(3, &[GAP; 4], &[4, 4], 0)?, None);
///
/// // 500 grams came in at midnight, between hours 23 and 24: they are of day 1.
/// let readings = [[40_000; 24], [40_500; 24]].concat();
/// let (mut coefficients, mut codes) = ([0; 64], [0; 32]);
/// sagivelume::make(48, &readings, &mut coefficients, &mut codes)?;
/// assert_eq!(sagivelume::day_change(48, &coefficients, &codes, 0)?, Some(0));
/// assert_eq!(sagivelume::day_change(48, &coefficients, &codes, 1)?, Some(500));
///
/// let refused = sagivelume::day_change(48, &coefficients, &codes, 2);
/// assert_eq!(refused, Err(Refusal { number: Refusal::BAD_WINDOW, place: 0 }));
/// # Ok::<(), Refusal>(())
/// ```
pub fn day_change(n: usize, coefficients: &[i32], codes: &[u8], day: usize) -> Result<Option<i32>, Refusal> {
    linked::day_change(n, coefficients, codes, day).taken()
}

/// An answer without its count: found 0 is "no reading", with 0 in every other field.
#[repr(C)]
pub(crate) struct ToldAnswer {
    found: usize,
    first_hour: usize,
    last_hour: usize,
    first: i32,
    last: i32,
    low: i32,
    high: i32,
}

impl ToldAnswer {
    /// An answer as the archive takes it.
    pub(crate) fn of(answer: Answer) -> ToldAnswer {
        let Some(Summary { first, last, low, high }) = answer else {
            return ToldAnswer { found: 0, first_hour: 0, last_hour: 0, first: 0, last: 0, low: 0, high: 0 };
        };
        ToldAnswer {
            found: 1,
            first_hour: first.hour,
            last_hour: last.hour,
            first: first.grams,
            last: last.grams,
            low,
            high,
        }
    }

    /// The answer itself.
    pub(crate) fn answer(self) -> Answer {
        let ToldAnswer { found, first_hour, last_hour, first, last, low, high } = self;
        (found != 0).then_some(Summary {
            first: Reading { hour: first_hour, grams: first },
            last: Reading { hour: last_hour, grams: last },
            low,
            high,
        })
    }
}

/// How a finished column ended, with its answer and its count.
#[repr(C)]
pub(crate) struct ToldFinished {
    number: usize,
    place: usize,
    answer: ToldAnswer,
    count: usize,
}

impl ToldFinished {
    /// Answer and count, or the refusal.
    pub(crate) fn taken(self) -> Result<Finished, Refusal> {
        let ToldFinished { number, place, answer, count } = self;
        Told { number, place }.taken().map(|()| Finished { answer: answer.answer(), count })
    }
}

/// How a day change ended, with the grams. Found 0 is "no reading".
#[repr(C)]
pub(crate) struct ToldChange {
    number: usize,
    place: usize,
    found: usize,
    grams: i32,
}

impl ToldChange {
    /// The change, `None` if the day has no reading, or the refusal.
    pub(crate) fn taken(self) -> Result<Option<i32>, Refusal> {
        let ToldChange { number, place, found, grams } = self;
        Told { number, place }.taken().map(|()| (found != 0).then_some(grams))
    }
}
