//! The answer of a column at a depth.

use std::rc::Rc;

use sagivelume::{Column, LowHigh, Refusal, Stopped};

use super::Call;
use crate::columns::{causes_in_columns, columns, columns_of_windows, edge_columns, every_column};
use crate::columns::{draw_column, next_column, numbers_of, SMALL_IN_32_BITS};
use crate::drawing::Drawing;
use crate::given::{field, Given, Head};
use crate::lent_tables::{self, draw_lent, LentTable, NO_HOUR, UNSOUND_ELSEWHERE};
use crate::line::Line;
use crate::numbers::{draw_n, MOST};

/// `stopped n a b w k d | coefficients | codes`
pub struct StoppedAt {
    table: Rc<LentTable>,
    column: Column,
    depth: usize,
}

/// Every depth there is, the one after and one far beyond.
fn every_depth(table: &LentTable) -> Vec<usize> {
    (0..=table.levels() + 1).chain([usize::MAX]).collect()
}

/// What a call answers, as a head.
fn answered(stopped: Result<Stopped, Refusal>) -> Head {
    let range =
        |range: Option<LowHigh>| [field(range.map(|range| range.low)), field(range.map(|range| range.high))];
    Head::answering(stopped.map(|Stopped { outer, inner, count }| {
        let ([outer_low, outer_high], [inner_low, inner_high]) = (range(outer), range(inner));
        [outer_low, outer_high, inner_low, inner_high, count.to_string()]
    }))
}

impl Call for StoppedAt {
    const NAME: &'static str = "stopped";
    const OUTCOMES: &'static [&'static str] = &[
        NO_HOUR,
        "taken without a range",
        "taken with the outer range alone",
        "taken with both ranges",
        UNSOUND_ELSEWHERE,
        "refused 1",
        "refused 3",
        "refused 4 at the root values",
        "refused 4 at an opened node above the pairs",
        "refused 4 at an opened pair",
        "refused 5",
        "refused 6 for w",
        "refused 6 for k",
        "refused 7",
    ];

    fn edges() -> Vec<StoppedAt> {
        let mut calls = Vec::new();
        let mut at_depths = |table: &Rc<LentTable>, columns: Vec<Column>, depths: &[usize]| {
            for (column, &depth) in
                columns.into_iter().flat_map(|column| depths.iter().map(move |d| (column, d)))
            {
                calls.push(StoppedAt { table: Rc::clone(table), column, depth });
            }
        };
        for table in lent_tables::small_tables().iter().chain(&lent_tables::damaged_tables()) {
            at_depths(table, every_column(table.n.min(6)), &every_depth(table));
        }
        for table in lent_tables::tables_of_edges() {
            at_depths(&table, edge_columns(table.n), &[0, usize::MAX]);
        }
        for table in lent_tables::tables_of_edge_lengths() {
            at_depths(&table, vec![Column { a: 0, b: 1, w: 1, k: 0 }], &every_depth(&table));
        }
        for table in lent_tables::causes_in_tables() {
            at_depths(&table, causes_in_columns(), &[2, 3]);
        }
        for n in [64, 100, 1_000] {
            let table = lent_tables::long_table(n);
            at_depths(&table, columns_of_windows(n), &every_depth(&table));
        }
        let longest = lent_tables::long_table(MOST);
        at_depths(&longest, columns(0, MOST, 7).collect(), &every_depth(&longest));
        at_depths(&longest, columns(1, MOST - 1, 1_024).collect(), &[14]);
        calls
    }

    fn draw(random: &mut Drawing) -> StoppedAt {
        let n = draw_n(random);
        let column = draw_column(random, n);
        let table = draw_lent(random, n, column);
        let l = table.levels();
        let depth = match random.below(16) {
            0 => random.one_of(&[l + 1, l + 2, 15, SMALL_IN_32_BITS, usize::MAX]),
            1..=6 => l,
            _ => random.below(l as u64 + 1) as usize,
        };
        StoppedAt { table, column, depth }
    }

    fn next(&self) -> Option<StoppedAt> {
        Some(StoppedAt {
            table: Rc::clone(&self.table),
            column: next_column(self.column)?,
            depth: self.depth,
        })
    }

    fn line(&self) -> String {
        let line = numbers_of(Line::call(StoppedAt::NAME).number(self.table.n), self.column);
        self.table.end(line.number(self.depth))
    }

    fn given(&self) -> Given {
        self.table.given(|coefficients, codes| {
            answered(sagivelume::stopped(self.table.n, coefficients, codes, self.column, self.depth))
        })
    }

    fn outcome(&self, head: &Head) -> String {
        let taken = match head.fields() {
            [.., count] if count == "0" => NO_HOUR,
            [outer, ..] if outer == "-" => "taken without a range",
            [_, _, inner, ..] if inner == "-" => "taken with the outer range alone",
            _ => "taken with both ranges",
        };
        self.table.outcome(head, self.column, taken)
    }
}
