//! Columns of windows as they are drawn. What stands at the edges is listed besides.

use sagivelume::Column;

use crate::drawing::Drawing;
use crate::line::Line;
use crate::numbers::MOST;

/// The most columns of a window.
const MOST_COLUMNS: usize = 4_096;
/// Of a drawn window with so many columns or fewer, every column from the drawn one on is compared.
const FEW_COLUMNS: usize = 40;

/// To who keeps 32 bits of it, this is 1.
pub const SMALL_IN_32_BITS: usize = (1 << 32) + 1;

/// Numbers beyond every hour, width, column, depth and day. 24 times 2^61 wraps to 0, and 24 times the next number of
/// this list to 8.
pub const FAR: [usize; 7] = [1 << 16, 1 << 32, SMALL_IN_32_BITS, 1 << 61, usize::MAX / 24 + 1, 1 << 63, usize::MAX];

/// Why refusal 6 was given: w is 0 or too large, or the column number is not below it.
pub fn outcome_of_6(column: Column) -> String {
    let cause = if (1..=MOST_COLUMNS).contains(&column.w) { "k" } else { "w" };
    format!("refused 6 for {cause}")
}

/// A column as the second program takes it.
pub fn of_second(Column { a, b, w, k }: Column) -> second::Column {
    let [a, b, w, k] = [a, b, w, k].map(|number| number as u64);
    second::Column { a, b, w, k }
}

/// The numbers of a column in a line.
pub fn numbers_of(line: Line, Column { a, b, w, k }: Column) -> Line {
    line.number(a).number(b).number(w).number(k)
}

/// Every column of every window of n hours, in one column up to two more than the window has hours.
pub fn every_column(n: usize) -> Vec<Column> {
    let windows = (0..n).flat_map(|a| (a + 1..=n).map(move |b| (a, b)));
    windows.flat_map(|(a, b)| (1..=b - a + 2).flat_map(move |w| columns(a, b, w))).collect()
}

/// Every column of one window.
pub fn columns(a: usize, b: usize, w: usize) -> impl Iterator<Item = Column> {
    (0..w).map(move |k| Column { a, b, w, k })
}

/// Every sort of window of n hours with every sort of width and of column number, of which most are refused.
pub fn edge_columns(n: usize) -> Vec<Column> {
    let windows =
        [(0, n), (n.saturating_sub(1), n), (n, n), (n / 2 + 1, n / 2), (0, n.saturating_add(1)), (1, usize::MAX)];
    let widths = [1, 3, MOST_COLUMNS, 0, MOST_COLUMNS + 1, SMALL_IN_32_BITS, usize::MAX];
    let mut columns = Vec::new();
    for ((a, b), w) in windows.into_iter().flat_map(|window| widths.map(|w| (window, w))) {
        columns.extend([0, w / 2, w.saturating_sub(1), w, usize::MAX].map(|k| Column { a, b, w, k }));
    }
    columns
}

/// Columns of three hours with every set of the causes of refusals 5 and 6.
pub fn causes_in_columns() -> Vec<Column> {
    let windows = [(0, 3), (1, 1), (2, 1), (0, 4)];
    let widths = [(2, 1), (0, 0), (MOST_COLUMNS + 1, 0), (2, 2)];
    let both = windows.into_iter().flat_map(|window| widths.map(|width| (window, width)));
    both.map(|((a, b), (w, k))| Column { a, b, w, k }).collect()
}

/// Every column of some windows of a longer series.
pub fn columns_of_windows(n: usize) -> Vec<Column> {
    let windows = [(0, n), (1, n - 1), (n / 3, n / 2), (n / 2 - 1, n / 2 + 1)];
    let widths = [1, 2, 7, 24, 50];
    windows.into_iter().flat_map(|(a, b)| widths.into_iter().flat_map(move |w| columns(a, b, w))).collect()
}

/// A column of a window of n hours: mostly one that there is, often with more columns than hours.
pub fn draw_column(random: &mut Drawing, n: usize) -> Column {
    let (a, b) = draw_window(random, n);
    let hours = b.saturating_sub(a).min(MOST) as u64;
    let w = match random.below(16) {
        0 => random.one_of(&[0, MOST_COLUMNS + 1, SMALL_IN_32_BITS, usize::MAX]),
        1 => MOST_COLUMNS,
        2 => 1 + random.below(MOST_COLUMNS as u64) as usize,
        3..=6 => 1,
        7..=10 => 1 + random.below(4) as usize,
        _ => (1 + random.below(hours + 3) as usize).min(MOST_COLUMNS),
    };
    let k = match random.below(16) {
        0 => random.one_of(&[w, w.saturating_add(1), SMALL_IN_32_BITS, usize::MAX]),
        1 => w.saturating_sub(1),
        2 | 3 => 0,
        _ => random.below(w.max(1) as u64) as usize,
    };
    Column { a, b, w, k }
}

/// The column after this one, if there is one and its window has few columns.
pub fn next_column(column: Column) -> Option<Column> {
    let next = Column { k: column.k.checked_add(1)?, ..column };
    (next.k < next.w && next.w <= FEW_COLUMNS).then_some(next)
}

/// A window: mostly one of n hours, often the whole series or a few hours.
fn draw_window(random: &mut Drawing, n: usize) -> (usize, usize) {
    let hours = n.clamp(1, MOST) as u64;
    let a = random.below(hours) as usize;
    let b = a + 1 + random.below(hours - a as u64) as usize;
    match random.below(16) {
        0 => random.one_of(&[
            (a, a),
            (b, a),
            (a, n.saturating_add(1)),
            (n, n),
            (a, usize::MAX),
            (usize::MAX - 1, usize::MAX),
        ]),
        1..=4 => (0, n),
        5 => (a, a + 1),
        6 | 7 => (a, b.min(a + 5)),
        8 => (a, n),
        _ => (a, b),
    }
}

#[cfg(test)]
mod tests {
    use super::*;

    #[test]
    fn every_column_is_there_once() {
        let columns = every_column(3);
        // Three windows of one hour, two of two, one of three; 1 + 2 + .. + (L + 2) columns of each.
        assert_eq!(columns.len(), 3 * 6 + 2 * 10 + 15);
        assert!(columns.iter().all(|&column| second::edges(3, of_second(column)).is_ok()));
        let without_hour = |column: &&Column| second::edges(3, of_second(**column)).unwrap().is_empty();
        assert!(columns.iter().filter(without_hour).count() > 10);
    }
}
