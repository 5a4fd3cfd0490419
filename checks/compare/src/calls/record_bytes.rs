//! How many bytes a record has.

use super::Call;
use crate::drawing::Drawing;
use crate::given::{Given, Head};
use crate::line::Line;
use crate::numbers::{draw_n, EDGES_OF_N, MOST};

/// `record_bytes n`
pub struct RecordBytes {
    n: usize,
}

impl Call for RecordBytes {
    const NAME: &'static str = "record_bytes";
    const OUTCOMES: &'static [&'static str] = &["told", "of no series"];

    fn edges() -> Vec<RecordBytes> {
        (0..=MOST + 1).chain(EDGES_OF_N).map(|n| RecordBytes { n }).collect()
    }

    fn draw(random: &mut Drawing) -> RecordBytes {
        RecordBytes { n: draw_n(random) }
    }

    fn line(&self) -> String {
        Line::call(RecordBytes::NAME).number(self.n).end()
    }

    fn given(&self) -> Given {
        Given::new(Head::Taken(vec![sagivelume::record_bytes(self.n).to_string()]))
    }

    fn outcome(&self, head: &Head) -> String {
        String::from(if head.fields() == ["0"] { "of no series" } else { "told" })
    }
}
