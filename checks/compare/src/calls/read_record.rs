//! Reading a record.

use super::{outcome_of_record, Call};
use crate::drawing::Drawing;
use crate::drawn_records::draw_record;
use crate::given::{Given, Head};
use crate::lent::Lent;
use crate::line::Line;
use crate::numbers::{draw_held, draw_lent_length, Room, EDGES_OF_N, EDGE_LENGTHS, EVERY_P};
use crate::records::{bytes_needed, edge_records, faults_together, hours_stated, record_of, record_of_equal};
use crate::series::edge_series;
use crate::tables::{edge_tables, Table};

/// `read_record | record | coefficients | codes`
pub struct ReadRecord {
    bytes: Vec<u8>,
    coefficients: Vec<i32>,
    codes: Vec<u8>,
}

impl ReadRecord {
    /// A record read into buffers that are just long enough for the hours it states.
    fn of(bytes: Vec<u8>) -> ReadRecord {
        let room = Room::of(hours_stated(&bytes));
        ReadRecord { bytes, coefficients: vec![-7; room.coefficients], codes: vec![77; room.codes] }
    }
}

impl Call for ReadRecord {
    const NAME: &'static str = "read_record";
    const OUTCOMES: &'static [&'static str] = &[
        "taken",
        "refused 1",
        "refused 3",
        "refused 4 at the root values",
        "refused 4 at a node above the pairs",
        "refused 4 at a pair",
        "refused 8 within the header",
        "refused 8 after the header",
        "refused 9",
        "refused 10",
        "refused 11",
    ];

    fn edges() -> Vec<ReadRecord> {
        let mut calls: Vec<ReadRecord> = edge_records().into_iter().map(ReadRecord::of).collect();
        for readings in edge_series() {
            calls.push(ReadRecord::of(record_of(readings.len(), &Table::made(&readings))));
        }
        for (n, table) in edge_tables() {
            calls.push(ReadRecord::of(record_of(n, &table)));
        }
        for bytes in faults_together() {
            calls.push(ReadRecord { bytes, coefficients: vec![-7; 1], codes: vec![] });
        }
        // Every n at the edges and every P, with each buffer in turn too short, just long enough and longer.
        for n in EDGES_OF_N.into_iter().chain(EVERY_P) {
            let room = Room::of(n);
            for length in EDGE_LENGTHS {
                for lengthened in 0..3 {
                    let as_lent = |buffer, needed| if buffer == lengthened { length(needed) } else { needed };
                    let mut bytes = record_of_equal(n);
                    bytes.resize(as_lent(0, room.record()), 77);
                    let coefficients = vec![-7; as_lent(1, room.coefficients)];
                    calls.push(ReadRecord { bytes, coefficients, codes: vec![77; as_lent(2, room.codes)] });
                }
            }
        }
        calls
    }

    fn draw(random: &mut Drawing) -> ReadRecord {
        let bytes = draw_record(random);
        let room = Room::of(hours_stated(&bytes));
        let coefficients = draw_lent_length(random, room.coefficients);
        let codes = draw_lent_length(random, room.codes);
        ReadRecord { bytes, coefficients: draw_held(random, coefficients), codes: draw_held(random, codes) }
    }

    fn line(&self) -> String {
        let line = Line::call(ReadRecord::NAME);
        line.buffer(&self.bytes).buffer(&self.coefficients).buffer(&self.codes).end()
    }

    fn given(&self) -> Given {
        let needed = Room::of_series(hours_stated(&self.bytes));
        let record = Lent::holding("record", &self.bytes, bytes_needed(&self.bytes));
        let mut coefficients =
            Lent::holding("coefficients", &self.coefficients, needed.map(|room| room.coefficients));
        let mut codes = Lent::holding("codes", &self.codes, needed.map(|room| room.codes));
        let read = sagivelume::read_record(record.part(), coefficients.part_mut(), codes.part_mut());
        let head = Head::answering(read.map(|hours| [hours]));
        Given::new(head).read(&record).written(&coefficients).written(&codes)
    }

    fn outcome(&self, head: &Head) -> String {
        outcome_of_record(head, &self.bytes)
    }
}
