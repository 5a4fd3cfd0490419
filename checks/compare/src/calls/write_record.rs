//! Writing a record.

use super::{outcome_of_table, Call};
use crate::drawing::Drawing;
use crate::given::{Given, Head};
use crate::lent::Lent;
use crate::line::Line;
use crate::numbers::{
    draw_held, draw_lent_length, draw_n, draw_resized, Room, EDGES_OF_N, EDGE_LENGTHS, EVERY_P,
};
use crate::records::unsound_tables;
use crate::series::edge_series;
use crate::tables::{draw_table, edge_tables, Table};

/// `write_record n | coefficients | codes | record`
pub struct WriteRecord {
    n: usize,
    coefficients: Vec<i32>,
    codes: Vec<u8>,
    bytes: Vec<u8>,
}

impl WriteRecord {
    /// The record of a table, written into a buffer that is just long enough.
    fn of(n: usize, Table { coefficients, codes }: Table) -> WriteRecord {
        WriteRecord { n, coefficients, codes, bytes: vec![77; Room::of(n).record()] }
    }
}

/// Several faults in one call, so that the order of the refusals shows.
fn faults_together() -> Vec<WriteRecord> {
    let mut calls = Vec::new();
    for n in [2, 0, 16_385] {
        for root in [[5, 9], [9, 5]] {
            for (coefficients, codes, bytes) in [(2, 1, 14), (1, 1, 14), (2, 0, 14), (2, 1, 13), (0, 0, 0)] {
                let coefficients = root[..coefficients].to_vec();
                calls.push(WriteRecord { n, coefficients, codes: vec![0; codes], bytes: vec![77; bytes] });
            }
        }
    }
    calls
}

impl Call for WriteRecord {
    const NAME: &'static str = "write_record";
    const OUTCOMES: &'static [&'static str] = &[
        "taken",
        "refused 1",
        "refused 3",
        "refused 4 at the root values",
        "refused 4 at a node above the pairs",
        "refused 4 at a pair",
    ];

    fn edges() -> Vec<WriteRecord> {
        let mut calls = faults_together();
        for readings in edge_series() {
            calls.push(WriteRecord::of(readings.len(), Table::made(&readings)));
        }
        for (n, table) in edge_tables().into_iter().chain(unsound_tables()) {
            calls.push(WriteRecord::of(n, table));
        }
        // Every n at the edges and every P, with each buffer in turn too short, just long enough and longer.
        for n in EDGES_OF_N.into_iter().chain(EVERY_P) {
            let room = Room::of(n);
            for length in EDGE_LENGTHS {
                for lengthened in 0..3 {
                    let as_lent = |buffer, needed| if buffer == lengthened { length(needed) } else { needed };
                    let Table { mut coefficients, mut codes } = Table::made(&vec![-5; room.hours]);
                    coefficients.resize(as_lent(0, room.coefficients), i32::MIN);
                    codes.resize(as_lent(1, room.codes), 255);
                    calls.push(WriteRecord {
                        n,
                        coefficients,
                        codes,
                        bytes: vec![77; as_lent(2, room.record())],
                    });
                }
            }
        }
        calls
    }

    fn draw(random: &mut Drawing) -> WriteRecord {
        let n = draw_n(random);
        let room = Room::draw(random, n);
        let Table { mut coefficients, mut codes } = draw_table(random, room);
        draw_resized(random, &mut coefficients);
        draw_resized(random, &mut codes);
        let bytes = draw_lent_length(random, room.record());
        WriteRecord { n, coefficients, codes, bytes: draw_held(random, bytes) }
    }

    fn line(&self) -> String {
        let line = Line::call(WriteRecord::NAME).number(self.n);
        line.buffer(&self.coefficients).buffer(&self.codes).buffer(&self.bytes).end()
    }

    fn given(&self) -> Given {
        let needed = Room::of_series(self.n);
        let coefficients =
            Lent::holding("coefficients", &self.coefficients, needed.map(|room| room.coefficients));
        let codes = Lent::holding("codes", &self.codes, needed.map(|room| room.codes));
        let mut record = Lent::holding("record", &self.bytes, needed.map(Room::record));
        let written = sagivelume::write_record(self.n, coefficients.part(), codes.part(), record.part_mut());
        let head = Head::answering(written.map(|bytes| [bytes]));
        Given::new(head).read(&coefficients).read(&codes).written(&record)
    }

    fn outcome(&self, head: &Head) -> String {
        outcome_of_table(head, self.n)
    }
}
