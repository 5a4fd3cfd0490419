//! Days: the hours of one and those before it, as columns, and tables lent for them as they are drawn. What stands at
//! the edges is listed besides.

use std::ops::Range;
use std::rc::Rc;

use sagivelume::Column;
use second::hours::GAP;

use crate::drawing::Drawing;
use crate::lent_tables::{spoil_place, LentTable};
use crate::numbers::{draw_n_of_days, Room};
use crate::series::draw_series;
use crate::tables::Table;

/// The hours of a day.
pub const DAY: usize = 24;

/// The hours of a day, cut at n, as one column.
pub fn hours_of(day: usize, n: usize) -> Column {
    let a = day.saturating_mul(DAY);
    Column { a, b: a.saturating_add(DAY).min(n), w: 1, k: 0 }
}

/// All hours before a day, as one column. Day 0 has none, which is no window.
pub fn hours_before(day: usize) -> Column {
    Column { a: 0, b: day.saturating_mul(DAY), w: 1, k: 0 }
}

/// Tables of a few days: short ones, whole ones, days without a reading, days long apart.
pub fn edge_tables() -> Vec<Rc<LentTable>> {
    let mut tables = Vec::new();
    for n in [23, 24, 25, 47, 48, 49, 71, 72, 73] {
        let held = |hour: usize| if hour / DAY == 1 { GAP } else { 40_000 - 25 * hour as i32 };
        tables.push(LentTable::made(&(0..n).map(held).collect::<Vec<i32>>()));
        tables.push(LentTable::made(&(0..n).map(|hour| 40_000 + 25 * hour as i32).collect::<Vec<i32>>()));
    }
    let mut apart = vec![GAP; 40 * DAY];
    (apart[5], apart[20], apart[38 * DAY], apart[39 * DAY + 1]) = (300, 310, 350, 333);
    tables.push(LentTable::made(&apart));
    tables
}

/// Tables of two days and a half with every set of days without a reading: as made, spoilt at each place in turn, and
/// spoilt at two of the first and last pairs of the days, so that the order of examination shows.
pub fn damaged_tables() -> Vec<Rc<LentTable>> {
    let n = 2 * DAY + DAY / 2;
    let Room { coefficients, codes, .. } = Room::of(n);
    let pairs = [0, 11, 12, 23, 24, 29].map(|pair| coefficients + pair);
    let of_two = (0..pairs.len()).flat_map(|one| (0..one).map(move |other| [pairs[one], pairs[other]]));
    let spoilt: Vec<[usize; 2]> = (0..coefficients + codes).map(|place| [place; 2]).chain(of_two).collect();
    let mut tables = Vec::new();
    for without in 0..8 {
        let held = |hour: usize| if without >> (hour / DAY) & 1 == 1 { GAP } else { hour as i32 };
        let readings: Vec<i32> = (0..n).map(held).collect();
        tables.push(LentTable::made(&readings));
        for places in &spoilt {
            let mut table = Table::made(&readings);
            places.iter().for_each(|&place| spoil_place(&mut table, place));
            tables.push(LentTable::of(n, table));
        }
    }
    tables
}

/// A table of some days, and one of them that is not the first: often some days before it have no reading, or all of
/// them, seldom it has none either. The table is as made, or spoilt in the day, before it, in both, or at its last
/// pair.
pub fn draw_day(random: &mut Drawing) -> (Rc<LentTable>, usize) {
    let n = draw_n_of_days(random);
    let days = n.div_ceil(DAY);
    let any = 1 + random.below(days as u64 - 1) as usize;
    let day = random.one_of(&[days - 1, any]);
    let mut readings = draw_series(random, n);
    readings[draw_gaps(random, day, n)].fill(GAP);
    let mut table = Table::made(&readings);
    let Column { a, b, .. } = hours_of(day, n);
    let spoilt: &[(usize, usize)] = match random.below(8) {
        0..=2 => &[],
        3 => &[(a, b)],
        4 => &[(0, a)],
        5 | 6 => &[(a, b), (0, a)],
        _ => &[(n - 1, n)],
    };
    random.note(if spoilt.is_empty() { "as made" } else { "a node changed" });
    spoilt.iter().for_each(|&(from, upto)| spoil_walk(random, &mut table, &readings, from..upto));
    (LentTable::of(n, table), day)
}

/// Hours to be without a reading: none, all before a day, some days just before it, or these and the day.
fn draw_gaps(random: &mut Drawing, day: usize, n: usize) -> Range<usize> {
    let Column { a, b, .. } = hours_of(day, n);
    let from = DAY * (1 + random.below(day as u64) as usize);
    match random.below(8) {
        0 => 0..a,
        1..=4 => from.min(a)..a,
        5 => from.min(a)..b,
        _ => 0..0,
    }
}

/// Spoils a node above the first reading of some hours or, more often, above the last, if they have one: mostly its
/// pair.
fn spoil_walk(random: &mut Drawing, table: &mut Table, readings: &[i32], mut hours: Range<usize>) {
    let reads = |&hour: &usize| readings[hour] != GAP;
    let Some(first) = hours.find(reads) else {
        return;
    };
    let last = hours.rfind(reads).unwrap_or(first);
    let (coefficients, pairs_from) = (table.coefficients.len(), table.codes.len());
    let node = (coefficients + random.one_of(&[first, first, last, last, last])) >> random.one_of(&[1, 1, 1, 2, 3, 4]);
    let detail = 2 * node + random.below(2) as usize;
    spoil_place(table, if node < pairs_from { detail } else { coefficients + node - pairs_from });
}

#[cfg(test)]
mod tests {
    use super::*;

    #[test]
    fn days_and_the_hours_before() {
        assert_eq!(hours_of(1, 48), Column { a: 24, b: 48, w: 1, k: 0 });
        assert_eq!(hours_of(1, 25), Column { a: 24, b: 25, w: 1, k: 0 });
        assert_eq!(hours_before(2), Column { a: 0, b: 48, w: 1, k: 0 });
        assert!(second::edges(48, crate::columns::of_second(hours_before(0))).is_err());
    }
}
