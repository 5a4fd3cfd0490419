//! Turning a table back.

use super::{outcome_of_table, Call};
use crate::drawing::Drawing;
use crate::given::{Given, Head};
use crate::lent::Lent;
use crate::line::Line;
use crate::numbers::{draw_held, draw_lent_length, draw_n, draw_resized, Room, EDGES_OF_N, EDGE_LENGTHS};
use crate::series::edge_series;
use crate::tables::{draw_table, edge_tables, Table};

/// `turn_back n | coefficients | codes | hours`
pub struct TurnBack {
    n: usize,
    coefficients: Vec<i32>,
    codes: Vec<u8>,
    hours: Vec<i32>,
}

impl TurnBack {
    /// A table turned back into a buffer that is just long enough.
    fn of(n: usize, table: Table) -> TurnBack {
        TurnBack { n, coefficients: table.coefficients, codes: table.codes, hours: vec![-7; n] }
    }
}

impl Call for TurnBack {
    const NAME: &'static str = "turn_back";
    const OUTCOMES: &'static [&'static str] = &[
        "taken",
        "refused 1",
        "refused 3",
        "refused 4 at the root values",
        "refused 4 at a node above the pairs",
        "refused 4 at a pair",
    ];

    fn edges() -> Vec<TurnBack> {
        let mut calls = Vec::new();
        for readings in edge_series() {
            calls.push(TurnBack::of(readings.len(), Table::made(&readings)));
        }
        for (n, table) in edge_tables() {
            calls.push(TurnBack::of(n, table));
        }
        // Every n at the edges, with each buffer in turn too short, just long enough and longer.
        for n in EDGES_OF_N {
            let room = Room::of(n);
            for length in EDGE_LENGTHS {
                for lengthened in 0..3 {
                    let as_lent = |buffer, needed| if buffer == lengthened { length(needed) } else { needed };
                    let Table { mut coefficients, mut codes } = Table::made(&vec![5; room.hours]);
                    coefficients.resize(as_lent(0, room.coefficients), i32::MIN);
                    codes.resize(as_lent(1, room.codes), 255);
                    calls.push(TurnBack { n, coefficients, codes, hours: vec![-7; as_lent(2, room.hours)] });
                }
            }
        }
        calls
    }

    fn draw(random: &mut Drawing) -> TurnBack {
        let n = draw_n(random);
        let room = Room::draw(random, n);
        let Table { mut coefficients, mut codes } = draw_table(random, room);
        draw_resized(random, &mut coefficients);
        draw_resized(random, &mut codes);
        let hours = draw_lent_length(random, room.hours);
        TurnBack { n, coefficients, codes, hours: draw_held(random, hours) }
    }

    fn line(&self) -> String {
        let line = Line::call(TurnBack::NAME).number(self.n);
        line.buffer(&self.coefficients).buffer(&self.codes).buffer(&self.hours).end()
    }

    fn given(&self) -> Given {
        let needed = Room::of_series(self.n);
        let coefficients =
            Lent::holding("coefficients", &self.coefficients, needed.map(|room| room.coefficients));
        let codes = Lent::holding("codes", &self.codes, needed.map(|room| room.codes));
        let mut hours = Lent::holding("hours", &self.hours, needed.map(|room| room.hours));
        let turned = sagivelume::turn_back(self.n, coefficients.part(), codes.part(), hours.part_mut());
        Given::new(Head::of(turned)).read(&coefficients).read(&codes).written(&hours)
    }

    fn outcome(&self, head: &Head) -> String {
        outcome_of_table(head, self.n)
    }
}
