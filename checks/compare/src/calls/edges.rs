//! The edges of a column.

use sagivelume::Column;

use super::{taken_or_refused, Call};
use crate::columns::{
    columns, draw_column, edge_columns, every_column, next_column, numbers_of, outcome_of_6,
};
use crate::drawing::Drawing;
use crate::given::{Given, Head};
use crate::lent_tables::NO_HOUR;
use crate::line::Line;
use crate::numbers::{draw_n, EDGES_OF_N, MOST};

/// `edges n a b w k`
pub struct Edges {
    n: usize,
    column: Column,
}

impl Call for Edges {
    const NAME: &'static str = "edges";
    const OUTCOMES: &'static [&'static str] =
        &["taken", NO_HOUR, "refused 1", "refused 5", "refused 6 for w", "refused 6 for k"];

    fn edges() -> Vec<Edges> {
        let mut calls = Vec::new();
        for n in 1..=12 {
            calls.extend(every_column(n).into_iter().map(|column| Edges { n, column }));
        }
        for n in EDGES_OF_N {
            calls.extend(edge_columns(n).into_iter().map(|column| Edges { n, column }));
        }
        // Every column of long windows, up to the most columns there can be.
        for (a, b, w) in
            [(0, MOST, 4_096), (0, MOST, 4_095), (1, MOST - 1, 777), (5_000, 9_095, 4_096), (0, 64, 3)]
        {
            calls.extend(columns(a, b, w).map(|column| Edges { n: MOST, column }));
        }
        calls
    }

    fn draw(random: &mut Drawing) -> Edges {
        let n = draw_n(random);
        Edges { n, column: draw_column(random, n) }
    }

    fn next(&self) -> Option<Edges> {
        Some(Edges { n: self.n, column: next_column(self.column)? })
    }

    fn line(&self) -> String {
        numbers_of(Line::call(Edges::NAME).number(self.n), self.column).end()
    }

    fn given(&self) -> Given {
        let edges = sagivelume::edges(self.n, self.column);
        Given::new(Head::answering(edges.map(|hours| [hours.start, hours.end])))
    }

    fn outcome(&self, head: &Head) -> String {
        match (head, head.fields()) {
            (Head::Refused(refusal), _) if refusal.number == 6 => outcome_of_6(self.column),
            (_, [first, end]) if first == end => String::from(NO_HOUR),
            _ => taken_or_refused(head),
        }
    }
}
