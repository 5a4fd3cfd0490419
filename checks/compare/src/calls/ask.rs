//! Opening a record and asking it for one coefficient.

use super::{outcome_of_record, Call};
use crate::drawing::Drawing;
use crate::drawn_records::{draw_place, draw_record};
use crate::given::{Given, Head};
use crate::lent::Lent;
use crate::line::Line;
use crate::numbers::Room;
use crate::records::{bytes_needed, edge_records, hours_stated};

/// `ask place | record`
pub struct Ask {
    place: usize,
    bytes: Vec<u8>,
}

impl Call for Ask {
    const NAME: &'static str = "ask";
    const OUTCOMES: &'static [&'static str] = &[
        "taken",
        "refused 1",
        "refused 8 within the header",
        "refused 8 after the header",
        "refused 9",
        "refused 10",
        "refused 11",
        "refused 13",
    ];

    fn edges() -> Vec<Ask> {
        let mut calls = Vec::new();
        for bytes in edge_records() {
            let p = Room::of(hours_stated(&bytes)).coefficients;
            calls.extend([0, p - 1, p, usize::MAX].map(|place| Ask { place, bytes: bytes.clone() }));
        }
        calls
    }

    fn draw(random: &mut Drawing) -> Ask {
        let bytes = draw_record(random);
        let p = Room::of(hours_stated(&bytes)).coefficients;
        Ask { place: draw_place(random, p), bytes }
    }

    fn line(&self) -> String {
        Line::call(Ask::NAME).number(self.place).buffer(&self.bytes).end()
    }

    fn given(&self) -> Given {
        let record = Lent::holding("record", &self.bytes, bytes_needed(&self.bytes));
        let asked = sagivelume::open_record(record.part()).and_then(|opened| opened.coefficient(self.place));
        let head = Head::answering(asked.map(|coefficient| [coefficient]));
        Given::new(head).read(&record)
    }

    fn outcome(&self, head: &Head) -> String {
        outcome_of_record(head, &self.bytes)
    }
}
