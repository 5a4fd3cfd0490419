//! Opening a record.

use super::{outcome_of_record, Call};
use crate::drawing::Drawing;
use crate::drawn_records::draw_record;
use crate::given::{Given, Head};
use crate::lent::Lent;
use crate::line::Line;
use crate::records::{bytes_needed, edge_records};

/// `open | record`
pub struct Open {
    bytes: Vec<u8>,
}

impl Call for Open {
    const NAME: &'static str = "open";
    const OUTCOMES: &'static [&'static str] = &[
        "taken",
        "refused 1",
        "refused 8 within the header",
        "refused 8 after the header",
        "refused 9",
        "refused 10",
        "refused 11",
    ];

    fn edges() -> Vec<Open> {
        edge_records().into_iter().map(|bytes| Open { bytes }).collect()
    }

    fn draw(random: &mut Drawing) -> Open {
        Open { bytes: draw_record(random) }
    }

    fn line(&self) -> String {
        Line::call(Open::NAME).buffer(&self.bytes).end()
    }

    fn given(&self) -> Given {
        let record = Lent::holding("record", &self.bytes, bytes_needed(&self.bytes));
        let opened = sagivelume::open_record(record.part());
        let head = Head::answering(opened.map(|opened| [opened.hours(), opened.places()]));
        Given::new(head).read(&record)
    }

    fn outcome(&self, head: &Head) -> String {
        outcome_of_record(head, &self.bytes)
    }
}
