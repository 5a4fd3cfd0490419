//! Tables lent for columns, sound or damaged where a column looks and where it does not. What stands at the edges is
//! listed besides.

use std::rc::Rc;

use sagivelume::Column;
use second::hours::GAP;

use crate::columns::{of_second, outcome_of_6};
use crate::drawing::Drawing;
use crate::given::{Given, Head};
use crate::lent::Lent;
use crate::line::Line;
use crate::numbers::{draw_resized, Room, EDGES_OF_N, EDGE_LENGTHS, MOST};
use crate::series::draw_series;
use crate::tables::{damage_node, draw_table, Table};

/// How a call ended that looks at no hour.
pub const NO_HOUR: &str = "taken without an hour";

/// How a call ended that was taken though the table is unsound: it looked at none of the unsound nodes.
pub const UNSOUND_ELSEWHERE: &str = "taken, unsound elsewhere";

/// A table lent for a column, and n, which need not be its own. Many calls share one.
pub struct LentTable {
    /// The hours of the series, as the call is told.
    pub n: usize,
    coefficients: Vec<i32>,
    codes: Vec<u8>,
    sound: bool,
}

impl LentTable {
    /// A table, said to be of n hours.
    pub fn of(n: usize, Table { coefficients, codes }: Table) -> Rc<LentTable> {
        let mut hours = vec![0; Room::of(n).hours];
        let sound = second::turn_back(n as u64, &coefficients, &codes, &mut hours).is_ok();
        Rc::new(LentTable { n, coefficients, codes, sound })
    }

    /// The table of a series.
    pub fn made(readings: &[i32]) -> Rc<LentTable> {
        LentTable::of(readings.len(), Table::made(readings))
    }

    /// l. If no series has so many hours, that of three.
    pub fn levels(&self) -> usize {
        Room::of(self.n).coefficients.ilog2() as usize
    }

    /// The end of a call's line: both buffers.
    pub fn end(&self, line: Line) -> String {
        line.buffer(&self.coefficients).buffer(&self.codes).end()
    }

    /// What a call gives to which both buffers are lent to be read.
    pub fn given(&self, call: impl FnOnce(&[i32], &[u8]) -> Head) -> Given {
        let needed = Room::of_series(self.n);
        let coefficients = Lent::holding("coefficients", &self.coefficients, needed.map(|room| room.coefficients));
        let codes = Lent::holding("codes", &self.codes, needed.map(|room| room.codes));
        Given::new(call(coefficients.part(), codes.part())).read(&coefficients).read(&codes)
    }

    /// The second program's finished answer of a column, without its count.
    pub fn finished(&self, column: Column) -> Result<second::Answer, second::Refusal> {
        let finished = second::finished(self.n as u64, &self.coefficients, &self.codes, of_second(column));
        finished.map(|finished| finished.answer)
    }

    /// Whether a column has a reading, if nothing is unsound above it.
    pub fn reads(&self, column: Column) -> bool {
        let l = self.levels() as u64;
        let stopped = second::stopped(self.n as u64, &self.coefficients, &self.codes, of_second(column), l);
        stopped.is_ok_and(|stopped| stopped.inner.is_some())
    }

    /// What happened to a call for a column of this table; `taken` is what to say of it if it was taken.
    pub fn outcome(&self, head: &Head, column: Column, taken: &str) -> String {
        match head {
            Head::Refused(refusal) if refusal.number == 4 => self.outcome_of_4(refusal.place, column),
            Head::Refused(refusal) if refusal.number == 6 => outcome_of_6(column),
            Head::Refused(refusal) => format!("refused {}", refusal.number),
            _ if self.sound || taken == NO_HOUR => String::from(taken),
            _ => String::from(UNSOUND_ELSEWHERE),
        }
    }

    /// Where the unsound node stands. It is on a walk if stopping at depth l, which has none, does not meet it.
    fn outcome_of_4(&self, place: usize, column: Column) -> String {
        let l = self.levels() as u64;
        let stopped = second::stopped(self.n as u64, &self.coefficients, &self.codes, of_second(column), l);
        let above_pairs = place < Room::of(self.n).codes;
        let node = match (place, stopped.is_err()) {
            (0, _) => "at the root values",
            (_, true) if above_pairs => "at an opened node above the pairs",
            (_, true) => "at an opened pair",
            (_, false) if above_pairs => "on a walk, above the pairs",
            (_, false) => "on a walk, at a pair",
        };
        format!("refused 4 {node}")
    }
}

/// Every n at the edges, also where no series has so many hours, each with a table of equal readings.
pub fn tables_of_edges() -> Vec<Rc<LentTable>> {
    EDGES_OF_N.into_iter().map(|n| LentTable::of(n, Table::made(&vec![5; Room::of(n).hours]))).collect()
}

/// The same, with each buffer in turn too short, just long enough and longer.
pub fn tables_of_edge_lengths() -> Vec<Rc<LentTable>> {
    let mut tables = Vec::new();
    for n in EDGES_OF_N {
        let room = Room::of(n);
        for length in EDGE_LENGTHS {
            for lengthened in 0..2 {
                let as_lent = |buffer, needed| if buffer == lengthened { length(needed) } else { needed };
                let Table { mut coefficients, mut codes } = Table::made(&vec![5; room.hours]);
                coefficients.resize(as_lent(0, room.coefficients), i32::MIN);
                codes.resize(as_lent(1, room.codes), 255);
                tables.push(LentTable::of(n, Table { coefficients, codes }));
            }
        }
    }
    tables
}

/// Tables with every set of the causes of refusals 1, 3 and 4, so that the order of the refusals shows.
pub fn causes_in_tables() -> Vec<Rc<LentTable>> {
    let mut tables = Vec::new();
    for n in [3, 0, MOST + 1] {
        for (coefficients, codes) in [(4, 2), (3, 2), (4, 1), (0, 0)] {
            for root in [[5, 5], [5, 4]] {
                let mut table = Table { coefficients: [root, [0, 0]].concat(), codes: vec![0, 2] };
                table.coefficients.truncate(coefficients);
                table.codes.truncate(codes);
                tables.push(LentTable::of(n, table));
            }
        }
    }
    tables
}

/// Every n up to 9, with every set of gaps up to 4 hours and some sets of more.
pub fn small_tables() -> Vec<Rc<LentTable>> {
    let mut tables = Vec::new();
    for n in 1..=9_usize {
        for gaps in (0..1 << n).filter(|gaps| n <= 4 || [0, 1, 0b10, 0b110, 0b1010_1010].contains(gaps)) {
            let held = |hour: usize| if gaps >> hour & 1 == 1 { GAP } else { [5, -3, 9, 9, 0][hour % 5] };
            tables.push(LentTable::made(&(0..n).map(held).collect::<Vec<i32>>()));
        }
    }
    tables
}

/// Small tables damaged at each place in turn, and one at any two places, so that the order of examination shows.
pub fn damaged_tables() -> Vec<Rc<LentTable>> {
    let mut tables = Vec::new();
    for n in [1, 2, 3, 4, 7, 8, 16] {
        let room = Room::of(n);
        let readings: Vec<i32> = (1..=n as i32).map(|held| if held == 6 { GAP } else { held }).collect();
        for place in 0..room.coefficients + room.codes {
            let others = if n == 8 { 0..place + 1 } else { place..place + 1 };
            for other in others {
                let mut table = Table::made(&readings);
                spoil_place(&mut table, place);
                spoil_place(&mut table, other);
                tables.push(LentTable::of(n, table));
            }
        }
    }
    tables
}

/// Puts what is never sound at a place of the coefficients, or, after them, of the codes.
pub fn spoil_place(table: &mut Table, place: usize) {
    match table.coefficients.get_mut(place) {
        Some(coefficient) => *coefficient = -2_000_001,
        None => table.codes[place - table.coefficients.len()] = 9,
    }
}

/// The table of a longer series, with single gaps and a run of them.
pub fn long_table(n: usize) -> Rc<LentTable> {
    let run = n / 3..n / 3 + n / 50;
    let held = |hour: usize| if hour % 33 == 7 || run.contains(&hour) { GAP } else { hour as i32 % 977 };
    LentTable::made(&(0..n).map(held).collect::<Vec<i32>>())
}

/// A table lent for a column of n hours: sound, or damaged at one node, often one that the column's edges are below, or
/// as it is drawn for other calls.
pub fn draw_lent(random: &mut Drawing, n: usize, column: Column) -> Rc<LentTable> {
    let room = Room::draw(random, n);
    let mut table = match random.below(8) {
        0 | 1 => draw_table(random, room),
        _ if room.hours > MOST => draw_table(random, room),
        kind => {
            let mut table = Table::made(&draw_series(random, room.hours));
            if kind < 5 {
                let node = draw_node(random, room, column);
                damage_node(random, &mut table, node);
            } else {
                random.note("as made");
            }
            table
        }
    };
    draw_resized(random, &mut table.coefficients);
    draw_resized(random, &mut table.codes);
    LentTable::of(n, table)
}

/// The number of a node: above an hour at an edge of the column, or above any hour; 0 stands for the root values.
fn draw_node(random: &mut Drawing, room: Room, column: Column) -> usize {
    let p = room.coefficients;
    let any = random.below(p as u64) as usize;
    let hour = match second::edges(room.hours as u64, of_second(column)) {
        Ok(hours) => random.one_of(&[hours.first as usize, hours.end as usize - 1, any]),
        Err(_) => any,
    };
    (p + hour.min(p - 1)) >> (1 + random.below(u64::from(p.ilog2()) + 1))
}

#[cfg(test)]
mod tests {
    use super::*;
    use crate::columns::draw_column;

    /// Every node of a table can be damaged, and a damaged one is unsound.
    #[test]
    fn damage_is_at_the_node_told() {
        let mut random = Drawing::new(3);
        let readings: Vec<i32> = (0..16).map(|hour| if hour % 5 == 4 { GAP } else { 7 * hour }).collect();
        let room = Room::of(16);
        let mut damaged = std::collections::BTreeSet::new();
        for _ in 0..3_000 {
            let column = draw_column(&mut random, 16);
            let node = draw_node(&mut random, room, column);
            let mut table = Table::made(&readings);
            damage_node(&mut random, &mut table, node);
            let turned = second::turn_back(16, &table.coefficients, &table.codes, &mut [0; 16]);
            if turned.is_err_and(|refusal| refusal.place == node as u64) {
                damaged.insert(node);
            }
        }
        assert!(damaged.into_iter().eq(0..16));
    }
}
