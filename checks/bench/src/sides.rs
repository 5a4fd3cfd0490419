//! The sides measured, each call with its answer held back from the compiler, so that nothing of it is left out.

use std::hint::black_box;

use crate::season::{Window, DAYS, N, W};
use crate::words::{self, Finished, LowHigh, Stopped};
use crate::work::{Work, Written, L, RECORD};
use crate::{fast, plain, scan};

/// The proved store.
pub struct Proved;
/// Plain Rust.
pub struct Plain;
/// Rust written for speed.
pub struct Fast;
/// A scan of the readings, for columns and days alone.
pub struct Scan;

/// The calls on a whole table. Each tells whether it was taken.
pub trait Store {
    /// Makes the table.
    fn make(readings: &[i32], written: &mut Written) -> bool;
    /// Turns it back.
    fn turn_back(written: &mut Written) -> bool;
    /// Writes its record.
    fn write_record(written: &mut Written) -> bool;
    /// Reads its record.
    fn read_record(written: &mut Written) -> bool;
    /// A finished column, if it is taken.
    fn finished(table: &Written, window: Window, k: usize) -> Option<Finished>;
    /// A column stopped at depth l, if it is taken.
    fn stopped(table: &Written, window: Window, k: usize) -> Option<Stopped>;
    /// The change of a day, if it is taken.
    fn day_change(table: &Written, day: usize) -> Option<Option<i32>>;
}

/// Every column of some windows, and every day. Each tells whether all were taken. None is inlined, so that what the
/// compiler makes of one does not depend on the others.
pub trait Parts {
    /// The columns finished.
    fn draw_finished(work: &Work, windows: &[Window]) -> bool;
    /// The columns stopped at depth l.
    fn draw_stopped(work: &Work, windows: &[Window]) -> bool;
    /// The changes of the days.
    fn change_days(work: &Work) -> bool;
}

/// Whether every column of some windows is taken.
fn all_columns(windows: &[Window], taken: impl Fn(Window, usize) -> bool) -> bool {
    windows.iter().all(|&window| (0..W).all(|k| taken(window, k)))
}

/// The same for every store, whose functions have the same names, with the words that it has for columns.
macro_rules! store {
    ($side:ident, $store:ident, $words:ident) => {
        impl Store for $side {
            fn make(readings: &[i32], Written { coefficients, codes, .. }: &mut Written) -> bool {
                let (n, readings) = black_box((N, readings));
                $store::make(n, readings, black_box(coefficients), black_box(codes)).is_ok()
            }

            fn turn_back(Written { coefficients, codes, hours, .. }: &mut Written) -> bool {
                let (n, hours) = black_box((N, hours));
                $store::turn_back(n, black_box(coefficients), black_box(codes), hours).is_ok()
            }

            fn write_record(Written { coefficients, codes, record, .. }: &mut Written) -> bool {
                let (n, record) = black_box((N, record));
                $store::write_record(n, black_box(coefficients), black_box(codes), record) == Ok(RECORD)
            }

            fn read_record(Written { record, read_coefficients, read_codes, .. }: &mut Written) -> bool {
                let (coefficients, codes) = black_box((read_coefficients, read_codes));
                $store::read_record(black_box(record), coefficients, codes) == Ok(N)
            }

            fn finished(table: &Written, (a, b): Window, k: usize) -> Option<Finished> {
                let column = $words::Column { a, b, w: W, k };
                let told = $store::finished(N, &table.coefficients, &table.codes, column).ok()?;
                let reading = |of: $words::Reading| words::Reading { hour: of.hour, grams: of.grams };
                let answer = told.answer.map(|$words::Summary { first, last, low, high }| words::Summary {
                    first: reading(first),
                    last: reading(last),
                    low,
                    high,
                });
                Some(Finished { answer, count: told.count })
            }

            fn stopped(table: &Written, (a, b): Window, k: usize) -> Option<Stopped> {
                let column = $words::Column { a, b, w: W, k };
                let told = $store::stopped(N, &table.coefficients, &table.codes, column, L).ok()?;
                let range = |$words::LowHigh { low, high }| LowHigh { low, high };
                Some(Stopped { outer: told.outer.map(range), inner: told.inner.map(range), count: told.count })
            }

            fn day_change(table: &Written, day: usize) -> Option<Option<i32>> {
                $store::day_change(N, &table.coefficients, &table.codes, day).ok()
            }
        }

        impl Parts for $side {
            #[inline(never)]
            fn draw_finished(Work { written, .. }: &Work, windows: &[Window]) -> bool {
                all_columns(windows, |(a, b), k| {
                    let (n, column) = black_box((N, $words::Column { a, b, w: W, k }));
                    let (coefficients, codes) = black_box((&written.coefficients, &written.codes));
                    black_box($store::finished(n, coefficients, codes, column)).is_ok()
                })
            }

            #[inline(never)]
            fn draw_stopped(Work { written, .. }: &Work, windows: &[Window]) -> bool {
                all_columns(windows, |(a, b), k| {
                    let (n, column) = black_box((N, $words::Column { a, b, w: W, k }));
                    let (coefficients, codes) = black_box((&written.coefficients, &written.codes));
                    black_box($store::stopped(n, coefficients, codes, column, L)).is_ok()
                })
            }

            #[inline(never)]
            fn change_days(Work { written, .. }: &Work) -> bool {
                (0..DAYS).all(|day| {
                    let (n, day) = black_box((N, day));
                    let (coefficients, codes) = black_box((&written.coefficients, &written.codes));
                    black_box($store::day_change(n, coefficients, codes, day)).is_ok()
                })
            }
        }
    };
}

store!(Proved, sagivelume, sagivelume);
store!(Plain, plain, words);
store!(Fast, fast, words);

impl Parts for Scan {
    #[inline(never)]
    fn draw_finished(Work { readings, .. }: &Work, windows: &[Window]) -> bool {
        all_columns(windows, |(a, b), k| {
            let (n, column) = black_box((N, words::Column { a, b, w: W, k }));
            black_box(scan::finished(n, black_box(readings), column)).is_ok()
        })
    }

    #[inline(never)]
    fn draw_stopped(Work { readings, .. }: &Work, windows: &[Window]) -> bool {
        all_columns(windows, |(a, b), k| {
            let (n, column) = black_box((N, words::Column { a, b, w: W, k }));
            black_box(scan::stopped(n, black_box(readings), column)).is_ok()
        })
    }

    #[inline(never)]
    fn change_days(Work { readings, .. }: &Work) -> bool {
        (0..DAYS).all(|day| {
            let (n, day) = black_box((N, day));
            black_box(scan::day_change(n, black_box(readings), day)).is_ok()
        })
    }
}
