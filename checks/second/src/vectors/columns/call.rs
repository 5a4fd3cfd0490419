//! A call on a column as text, and its answer.
//!
//! `21 n a b w k` is the edges of a column, `22 n a b w k d coefficients codes` its answer at a depth,
//! `23 n a b w k coefficients codes` its finished answer, `24 left right` joins two answers,
//! `25 n day coefficients codes` is the change of a day.
//!
//! An answer without its count is found, which is 0 for "no reading", the hours of the first reading and of the last,
//! their grams, low and high; it begins a line. Without a reading the others are 0 in what is answered and anything in
//! what is joined, where any found but 0 is a reading. An absent range is the gap mark twice. A day change is found and
//! the grams.

use crate::columns::{edges, stopped, Column, Stopped};
use crate::finished::{day_change, finished, join, Answer, Finished, Found, Reading};
use crate::hours::{LowHigh, GAP};
use crate::refusal::Refusal;
use crate::vectors::made::Made;
use crate::vectors::{head, lent, lines, numbers, outcome, Vector};

/// A lent table, told to be of n hours.
#[derive(Clone, Debug)]
pub struct Table {
    /// The hours of the series.
    pub n: u64,
    /// Only read.
    pub coefficients: Vec<i32>,
    /// Only read.
    pub codes: Vec<u8>,
}

impl Table {
    /// Both buffers as parts of a call.
    fn parts(&self) -> [Vec<String>; 2] {
        [lent(&self.coefficients), lent(&self.codes)]
    }
}

impl From<&Made> for Table {
    fn from(Made { n, coefficients, codes, .. }: &Made) -> Table {
        Table { n: *n, coefficients: coefficients.clone(), codes: codes.clone() }
    }
}

/// An answer that is joined, as numbers.
#[derive(Clone, Copy, Debug)]
pub struct Told {
    /// 0 if there is no reading.
    pub found: u64,
    /// What there is if there is one.
    pub fields: Found,
}

impl Told {
    /// The answer that the numbers stand for.
    pub fn answer(self) -> Answer {
        (self.found != 0).then_some(self.fields)
    }

    fn numbers(self) -> Vec<String> {
        let Found { first, last, low, high } = self.fields;
        let hours = [self.found, first.hour, last.hour].map(|number| number as i64);
        numbers(&[&hours[..], &[first.grams, last.grams, low, high].map(i64::from)].concat())
    }
}

impl From<Answer> for Told {
    fn from(answer: Answer) -> Told {
        let zero = Reading { hour: 0, grams: 0 };
        let fields = answer.unwrap_or(Found { first: zero, last: zero, low: 0, high: 0 });
        Told { found: u64::from(answer.is_some()), fields }
    }
}

/// A call.
#[derive(Clone, Debug)]
pub enum Call {
    /// The edges of a column.
    Edges {
        /// The hours of the series.
        n: u64,
        /// The column.
        column: Column,
    },
    /// The answer of a column at a depth.
    Stopped {
        /// What it is asked of.
        table: Table,
        /// The column.
        column: Column,
        /// The depth.
        depth: u64,
    },
    /// The finished answer of a column.
    Finished {
        /// What it is asked of.
        table: Table,
        /// The column.
        column: Column,
    },
    /// Joining two answers.
    Join {
        /// The answer of the earlier hours.
        left: Told,
        /// The answer of the later hours.
        right: Told,
    },
    /// The change of a day.
    DayChange {
        /// What it is asked of.
        table: Table,
        /// The day.
        day: u64,
    },
}

/// What a call is, n, and the numbers of a column.
fn asking(kind: u64, n: u64, Column { a, b, w, k }: Column) -> Vec<String> {
    numbers(&[kind, n, a, b, w, k].map(|number| number as i64))
}

impl Vector for Call {
    fn lines(&self) -> Vec<u8> {
        match self {
            Call::Edges { n, column } => lines(&[asking(21, *n, *column)]),
            Call::Stopped { table, column, depth } => {
                let [coefficients, codes] = table.parts();
                let head = [asking(22, table.n, *column), numbers(&[*depth as i64])].concat();
                lines(&[head, coefficients, codes])
            }
            Call::Finished { table, column } => {
                let [coefficients, codes] = table.parts();
                lines(&[asking(23, table.n, *column), coefficients, codes])
            }
            Call::Join { left, right } => lines(&[numbers(&[24]), left.numbers(), right.numbers()]),
            Call::DayChange { table, day } => {
                let [coefficients, codes] = table.parts();
                lines(&[numbers(&[25, table.n as i64, *day as i64]), coefficients, codes])
            }
        }
    }

    fn answer(self) -> (String, Vec<u8>) {
        match self {
            Call::Edges { n, column } => {
                let answered = edges(n, column).map(|hours| vec![hours.first as i64, hours.end as i64]);
                (outcome("edges", &answered), lines(&[head(&answered, 2)]))
            }
            Call::Stopped { table, column, depth } => {
                let answered = stopped(table.n, &table.coefficients, &table.codes, column, depth).map(ranges);
                (outcome("stopped", &answered), lines(&[head(&answered, 5)]))
            }
            Call::Finished { table, column } => {
                let answered = finished(table.n, &table.coefficients, &table.codes, column);
                (outcome("finished", &answered), lines(&finishing(answered)))
            }
            Call::Join { left, right } => {
                let joined = join(left.answer(), right.answer());
                (String::from("join taken"), lines(&[Told::from(joined).numbers()]))
            }
            Call::DayChange { table, day } => {
                let answered = day_change(table.n, &table.coefficients, &table.codes, day);
                let change = |change: Option<i32>| vec![i64::from(change.is_some()), i64::from(change.unwrap_or(0))];
                (outcome("day_change", &answered), lines(&[head(&answered.map(change), 2)]))
            }
        }
    }
}

/// Both ranges and the count.
fn ranges(Stopped { outer, inner, count }: Stopped) -> Vec<i64> {
    let absent = LowHigh { low: GAP, high: GAP };
    let range = |range: Option<LowHigh>| range.map_or(absent, |range| range);
    let [outer, inner] = [range(outer), range(inner)];
    [[outer.low, outer.high, inner.low, inner.high].map(i64::from).to_vec(), vec![count as i64]].concat()
}

/// The refusal and the count, and the answer on a line of its own.
fn finishing(answered: Result<Finished, Refusal>) -> [Vec<String>; 2] {
    let answer = answered.map_or(None, |finished| finished.answer);
    [head(&answered.map(|finished| vec![finished.count as i64]), 1), Told::from(answer).numbers()]
}
