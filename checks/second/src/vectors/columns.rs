//! The choice of calls on columns.

mod call;
mod days;

use super::made::{mixed, Made, SEVEN_HOURS};
use super::{has, GREATEST_NUMBER};
use crate::columns::{Column, MOST_COLUMNS};
use crate::finished::{finished, Found, Reading};
use crate::hours::{Shape, GAP, MOST_HOURS};
use crate::random::Random;
use crate::table::NEITHER;

pub use call::{Call, Table, Told};

const SEED: u64 = 31;

/// Numbers beyond every hour, width, column, depth and day.
const FAR: [u64; 4] = [65_536, 4_294_967_296, 4_294_967_297, GREATEST_NUMBER];

/// All calls, in their order in the text.
pub fn calls() -> Vec<Call> {
    let mut random = Random::new(SEED);
    let mut calls = numbers_to_hold_to();
    calls.extend(edges_of_columns());
    for readings in [&[500][..], &[GAP], &[7, 9], &[GAP, -7], &[9, -7, 7], &[GAP, 3, GAP]] {
        calls.extend(every_column_and_depth(&Made::of(readings)));
    }
    let eight = Made::of(&mixed(&mut random, 8));
    calls.extend(some_columns(&mut random, &eight));
    for n in [5, 9, 16, 17, 40] {
        let made = Made::of(&small(&mut random, n));
        calls.extend(some_columns(&mut random, &made));
    }
    calls.extend(causes());
    calls.extend(damaged(&mut random));
    calls.extend(days::calls(&mut random));
    calls.extend(joins());
    calls.extend(longest());
    calls
}

fn column(a: u64, b: u64, w: u64, k: u64) -> Column {
    Column { a, b, w, k }
}

fn edges(n: u64, column: Column) -> Call {
    Call::Edges { n, column }
}

fn stopping(made: &Made, column: Column, depth: u64) -> Call {
    Call::Stopped { table: Table::from(made), column, depth }
}

fn finishing(made: &Made, column: Column) -> Call {
    Call::Finished { table: Table::from(made), column }
}

fn changing(made: &Made, day: u64) -> Call {
    Call::DayChange { table: Table::from(made), day }
}

/// l of a table.
fn levels(made: &Made) -> u64 {
    u64::from(made.p().ilog2())
}

/// A series of few grams, so that its table is short as text, with gaps among it.
fn small(random: &mut Random, n: usize) -> Vec<i32> {
    (0..n).map(|_| if random.once_in(4) { GAP } else { random.between(-9, 9) }).collect()
}

/// Document 01's numbers to hold to: 5, 6 and 8, the parts of 11 on n, the depth and w, and 12.
fn numbers_to_hold_to() -> Vec<Call> {
    let seven = Made::of(&SEVEN_HOURS);
    let third = |k: u64| column(0, 7, 3, k);
    let mut calls: Vec<Call> = (0..3).flat_map(|k| [edges(7, third(k)), finishing(&seven, third(k))]).collect();
    calls.extend((0..=4).map(|depth| stopping(&seven, third(0), depth)));
    let two = Made::of(&[7, 9]);
    let fourths = (0..4).map(|k| column(0, 2, 4, k));
    calls.extend(fourths.flat_map(|column| [edges(2, column), stopping(&two, column, 1), finishing(&two, column)]));
    calls.extend([finishing(&seven.told(16_385), third(0)), edges(16_385, third(0))]);
    calls.extend([MOST_COLUMNS, MOST_COLUMNS + 1].map(|w| finishing(&seven, column(0, 7, w, 0))));
    let days: Vec<i32> = (0..24).map(|hour| 40_000 + hour * 600 / 23).chain([41_000, 41_100]).collect();
    let days = Made::of(&days);
    calls.extend([changing(&days, 0), changing(&days, 1), changing(&days, 2)]);
    calls
}

/// Every column of every window of four hours, in up to two columns more than it has hours; the cut of 64 hours in
/// three; the last columns of the longest series; every sort of window with every sort of width and column.
fn edges_of_columns() -> Vec<Call> {
    let mut calls: Vec<Call> = every_column(4, 2).into_iter().map(|column| edges(4, column)).collect();
    calls.extend((0..3).map(|k| edges(64, column(0, 64, 3, k))));
    for (a, b, w) in [(0, MOST_HOURS, MOST_COLUMNS), (1, MOST_HOURS, 4_095), (5, 9, MOST_COLUMNS)] {
        calls.extend([0, 1, w / 2, w - 2, w - 1, w].map(|k| edges(MOST_HOURS, column(a, b, w, k))));
    }
    for n in [7, 0, MOST_HOURS + 1, FAR[2]] {
        for (a, b) in [(0, 7), (6, 7), (7, 7), (5, 3), (0, 8), (0, FAR[3]), (FAR[2], FAR[3])] {
            let widths = [(3, 2), (3, 3), (0, 0), (MOST_COLUMNS + 1, 0), (FAR[2], 0), (2, FAR[1])];
            calls.extend(widths.map(|(w, k)| edges(n, column(a, b, w, k))));
        }
    }
    calls
}

/// Every column of every window of n hours, in up to so many columns more than it has hours.
fn every_column(n: u64, more: u64) -> Vec<Column> {
    let windows = (0..n).flat_map(|a| (a + 1..=n).map(move |b| (a, b)));
    let widths = windows.flat_map(|(a, b)| (1..=b - a + more).map(move |w| (a, b, w)));
    widths.flat_map(|(a, b, w)| (0..w).map(move |k| column(a, b, w, k))).collect()
}

/// Every column of a short series, finished and at every depth, one too deep too.
fn every_column_and_depth(made: &Made) -> Vec<Call> {
    let mut calls = Vec::new();
    for column in every_column(made.n, 1) {
        calls.extend((0..=levels(made) + 1).map(|depth| stopping(made, column, depth)));
        calls.push(finishing(made, column));
    }
    calls
}

/// Columns of windows of a longer series, finished and at some depth; one column at every depth; longer buffers.
fn some_columns(random: &mut Random, made: &Made) -> Vec<Call> {
    let n = made.n;
    let mut calls = Vec::new();
    for (a, b) in [(0, n), (1, n), (n / 2 - 1, n / 2 + 2)] {
        for (w, k) in [(1, 0), (2, 0), (2, 1), (3, 1), (n + 1, n / 2)] {
            calls.push(finishing(made, column(a, b, w, k)));
            calls.push(stopping(made, column(a, b, w, k), random.below(levels(made) + 1)));
        }
    }
    calls.extend((0..=levels(made) + 1).map(|depth| stopping(made, column(1, n - 1, 1, 0), depth)));
    let mut longer = made.clone();
    longer.coefficients.extend([1_000_001, -5]);
    longer.codes.extend([9, 255]);
    calls.extend([finishing(&longer, column(0, n, 1, 0)), stopping(&longer, column(0, n, 2, 1), levels(made))]);
    calls
}

/// Every set of causes of a refusal, for each call on a table; and numbers far beyond.
fn causes() -> Vec<Call> {
    let mut calls: Vec<Call> = (0..1 << 7).flat_map(with_causes).collect();
    let three = Made::of(&[5, 5, 5]);
    let columns = [(0, 3, 0, 0), (0, 3, MOST_COLUMNS + 1, 1), (0, 3, FAR[2], 0), (0, 3, 3, FAR[3]), (3, 3, 1, 0)];
    let columns = columns.map(|(a, b, w, k)| column(a, b, w, k));
    calls.extend(columns.into_iter().flat_map(|column| [stopping(&three, column, 9), finishing(&three, column)]));
    calls.extend(FAR.map(|depth| stopping(&three, column(0, 3, 1, 0), depth)));
    calls
}

/// Three hours with a set of causes: n, either buffer short, the window or the day, the column number, the depth, and
/// unsound root values. Without the depth all three calls are made.
fn with_causes(causes: u32) -> Vec<Call> {
    let mut made = Made::of(&[5, 5, 5]);
    if has(causes, 0) {
        made.n = if has(causes, 1) { 0 } else { MOST_HOURS + 1 };
    }
    made.coefficients.truncate(4 - usize::from(has(causes, 1)));
    made.codes.truncate(2 - usize::from(has(causes, 2)));
    let (b, day) = if has(causes, 3) { (4, 1) } else { (3, 0) };
    let asked = column(1, b, 2, if has(causes, 4) { 2 } else { 1 });
    if has(causes, 6) {
        made.coefficients[0] = 6;
    }
    if has(causes, 5) {
        return vec![stopping(&made, asked, 3)];
    }
    vec![stopping(&made, asked, 2), finishing(&made, asked), changing(&made, day)]
}

/// Tables damaged in every way, at an opened node, on a walk and where nobody looks.
fn damaged(random: &mut Random) -> Vec<Call> {
    let eight = Made::of(&[1, 2, 3, 4, 5, 6, 7, 8]);
    let mut calls = Vec::new();
    for table in eight.damaged().iter().chain(&with_each_changed(&eight)) {
        calls.push(finishing(table, column(0, table.n, 1, 0)));
        calls.push(finishing(table, column(2, 5, 1, 0)));
        calls.push(stopping(table, column(0, 7, 2, 0), 3));
    }
    for n in [1, 2, 3] {
        let made = Made::of(&small(random, n));
        calls.extend(made.damaged().iter().map(|table| finishing(table, column(0, table.n, 1, 0))));
    }
    let sixteen = Made::of(&small(random, 13));
    for _ in 0..60 {
        let (a, b) = (random.below(6), 7 + random.below(6));
        let table = sixteen.damaged_anywhere(random);
        calls.push(finishing(&table, column(a, b, 1, 0)));
        calls.push(stopping(&table, column(a, b, 2, 1), random.below(5)));
    }
    // Without an hour, or with root values that are empty, no other node is examined.
    let rubbish = eight.with_coefficients(0, &[NEITHER, NEITHER]).with_code(0, 9);
    calls.extend([finishing(&rubbish, column(0, 8, 1, 0)), stopping(&rubbish, column(0, 8, 3, 1), 3)]);
    let unsound = eight.with_coefficients(0, &[5, 4]);
    calls.extend([finishing(&unsound, column(0, 1, 2, 1)), stopping(&unsound, column(0, 1, 2, 1), 0)]);
    calls
}

/// The table with each code in turn changed to 9, any two such, and each node's low detail out of range.
fn with_each_changed(made: &Made) -> Vec<Made> {
    let codes = made.codes.len();
    let pairs = (0..codes).flat_map(|one| (one..codes).map(move |other| (one, other)));
    let codes = pairs.map(|(one, other)| made.with_code(one, 9).with_code(other, 9));
    let details = (1..made.p() / 2).map(|node| made.with_coefficients(2 * node, &[-2_000_001]));
    codes.chain(details).collect()
}

/// Joined in every way: the answers of the printer's three columns, none, and numbers that no column answers.
fn joins() -> Vec<Call> {
    let seven = Made::of(&SEVEN_HOURS);
    let third = |k: u64| finished(7, &seven.coefficients, &seven.codes, column(0, 7, 3, k)).expect("sound").answer;
    let reading = |hour: u64, grams: i32| Reading { hour, grams };
    let any = Found { first: reading(FAR[3], i32::MAX), last: reading(FAR[2], -i32::MAX), low: 9, high: -9 };
    let mut answers: Vec<Told> = (0..3).map(|k| Told::from(third(k))).chain([Told::from(None)]).collect();
    answers.extend([0, 1, 2, FAR[1], FAR[3]].map(|found| Told { found, fields: any }));
    let pairs = answers.iter().flat_map(|&left| answers.iter().map(move |&right| (left, right)));
    pairs.map(|(left, right)| Call::Join { left, right }).collect()
}

/// The longest series, almost equal throughout, so that its table is short as text: a finished column that opens many
/// nodes, the last column of as many as there can be at depth l, and the last day, which is short.
fn longest() -> Vec<Call> {
    let held = |hour: u64| match hour {
        0 | 5_462 | 10_900 | 16_383 => GAP,
        4_000 | 16_380 => 4,
        9_999 => 9,
        _ => 5,
    };
    let made = Made::of(&(0..MOST_HOURS).map(held).collect::<Vec<i32>>());
    let l = Shape::of(made.n).expect("a series of 1 to 16,384 hours").l;
    vec![
        finishing(&made, column(1, MOST_HOURS, 3, 1)),
        stopping(&made, column(0, MOST_HOURS, MOST_COLUMNS, MOST_COLUMNS - 1), l),
        changing(&made, MOST_HOURS / 24),
    ]
}
