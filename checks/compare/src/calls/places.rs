//! How many coefficients a table has.

use super::Call;
use crate::drawing::Drawing;
use crate::given::{Given, Head};
use crate::line::Line;
use crate::numbers::{draw_n, EDGES_OF_N, MOST};

/// `places n`
pub struct Places {
    n: usize,
}

impl Call for Places {
    const NAME: &'static str = "places";
    const OUTCOMES: &'static [&'static str] = &["told", "of no series"];

    fn edges() -> Vec<Places> {
        (0..=MOST + 1).chain(EDGES_OF_N).map(|n| Places { n }).collect()
    }

    fn draw(random: &mut Drawing) -> Places {
        Places { n: draw_n(random) }
    }

    fn line(&self) -> String {
        Line::call(Places::NAME).number(self.n).end()
    }

    fn given(&self) -> Given {
        Given::new(Head::Taken(vec![sagivelume::places(self.n).to_string()]))
    }

    fn outcome(&self, head: &Head) -> String {
        String::from(if head.fields() == ["0"] { "of no series" } else { "told" })
    }
}
