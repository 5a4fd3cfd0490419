//! The finished answer of a column.

use std::rc::Rc;

use sagivelume::{Column, Finished, Refusal};

use super::{answer_fields, Call};
use crate::columns::{causes_in_columns, columns, columns_of_windows, edge_columns, every_column};
use crate::columns::{draw_column, next_column, numbers_of};
use crate::drawing::Drawing;
use crate::given::{Given, Head};
use crate::lent_tables::{self, draw_lent, LentTable, NO_HOUR, UNSOUND_ELSEWHERE};
use crate::line::Line;
use crate::numbers::{draw_n, MOST};

/// `finished n a b w k | coefficients | codes`
pub struct FinishedColumn {
    table: Rc<LentTable>,
    column: Column,
}

impl FinishedColumn {
    /// Columns of one table.
    fn of(table: &Rc<LentTable>, columns: impl IntoIterator<Item = Column>) -> Vec<FinishedColumn> {
        columns.into_iter().map(|column| FinishedColumn { table: Rc::clone(table), column }).collect()
    }
}

/// What a call answers, as a head.
fn answered(finished: Result<Finished, Refusal>) -> Head {
    finished.map_or_else(Head::Refused, |Finished { answer, count }| {
        Head::Taken(answer_fields(answer).into_iter().chain([count.to_string()]).collect())
    })
}

impl Call for FinishedColumn {
    const NAME: &'static str = "finished";
    const OUTCOMES: &'static [&'static str] = &[
        "taken",
        NO_HOUR,
        "taken without a reading",
        UNSOUND_ELSEWHERE,
        "refused 1",
        "refused 3",
        "refused 4 at the root values",
        "refused 4 at an opened node above the pairs",
        "refused 4 at an opened pair",
        "refused 4 on a walk, above the pairs",
        "refused 4 on a walk, at a pair",
        "refused 5",
        "refused 6 for w",
        "refused 6 for k",
    ];

    fn edges() -> Vec<FinishedColumn> {
        let mut calls = Vec::new();
        for table in lent_tables::small_tables().iter().chain(&lent_tables::damaged_tables()) {
            calls.extend(FinishedColumn::of(table, every_column(table.n)));
        }
        for table in lent_tables::tables_of_edges() {
            calls.extend(FinishedColumn::of(&table, edge_columns(table.n)));
        }
        for table in lent_tables::tables_of_edge_lengths() {
            calls.extend(FinishedColumn::of(&table, [Column { a: 0, b: 1, w: 1, k: 0 }]));
        }
        for table in lent_tables::causes_in_tables() {
            calls.extend(FinishedColumn::of(&table, causes_in_columns()));
        }
        for n in [64, 100, 365, 1_000] {
            calls.extend(FinishedColumn::of(&lent_tables::long_table(n), columns_of_windows(n)));
            calls.extend(FinishedColumn::of(&lent_tables::long_table(n), columns(0, n, 4_096)));
        }
        let longest = lent_tables::long_table(MOST);
        calls.extend(FinishedColumn::of(&longest, columns_of_windows(MOST)));
        calls.extend(FinishedColumn::of(&longest, columns(0, MOST, 4_096)));
        calls
    }

    fn draw(random: &mut Drawing) -> FinishedColumn {
        let n = draw_n(random);
        let column = draw_column(random, n);
        FinishedColumn { table: draw_lent(random, n, column), column }
    }

    fn next(&self) -> Option<FinishedColumn> {
        Some(FinishedColumn { table: Rc::clone(&self.table), column: next_column(self.column)? })
    }

    fn line(&self) -> String {
        self.table.end(numbers_of(Line::call(FinishedColumn::NAME).number(self.table.n), self.column))
    }

    fn given(&self) -> Given {
        self.table.given(|coefficients, codes| {
            answered(sagivelume::finished(self.table.n, coefficients, codes, self.column))
        })
    }

    fn outcome(&self, head: &Head) -> String {
        let taken = match head.fields() {
            [.., count] if count == "0" => NO_HOUR,
            [first, ..] if first == "-" => "taken without a reading",
            _ => "taken",
        };
        self.table.outcome(head, self.column, taken)
    }
}
