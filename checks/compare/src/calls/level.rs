//! One level of details.

use super::Call;
use crate::drawing::Drawing;
use crate::given::{Given, Head};
use crate::lent::Lent;
use crate::line::Line;
use crate::numbers::{draw_held, draw_lent_length, draw_n, Room, EDGES_OF_N, EDGE_LENGTHS};

/// Levels that no series has, among them those at which a shift by them wraps.
const NO_LEVELS: [usize; 9] = [15, 16, 31, 32, 33, 63, 64, 1 << 32, usize::MAX];

/// `level n j | coefficients`
pub struct Level {
    n: usize,
    j: usize,
    coefficients: Vec<i32>,
}

/// Coefficients of which no two are alike, so that each shows its place.
fn counted(length: usize) -> Vec<i32> {
    (0..length as i32).collect()
}

impl Call for Level {
    const NAME: &'static str = "level";
    const OUTCOMES: &'static [&'static str] = &["details", "an empty part"];

    fn edges() -> Vec<Level> {
        let mut calls = Vec::new();
        for n in EDGES_OF_N {
            let needed = Room::of(n).coefficients;
            for j in (0..15).chain(NO_LEVELS) {
                calls.push(Level { n, j, coefficients: counted(needed) });
            }
            for length in EDGE_LENGTHS {
                for j in [0, 1, 12, usize::MAX] {
                    calls.push(Level { n, j, coefficients: vec![-7; length(needed)] });
                }
            }
        }
        calls
    }

    fn draw(random: &mut Drawing) -> Level {
        let n = draw_n(random);
        let room = Room::draw(random, n);
        let levels = u64::from(room.coefficients.ilog2());
        let j =
            if random.once_in(10) { random.one_of(&NO_LEVELS) } else { random.below(levels + 1) as usize };
        let lent = draw_lent_length(random, room.coefficients);
        let coefficients = if random.once_in(2) { counted(lent) } else { draw_held(random, lent) };
        Level { n, j, coefficients }
    }

    fn line(&self) -> String {
        Line::call(Level::NAME).number(self.n).number(self.j).buffer(&self.coefficients).end()
    }

    fn given(&self) -> Given {
        let needed = Room::of_series(self.n).map(|room| room.coefficients);
        let coefficients = Lent::holding("coefficients", &self.coefficients, needed);
        let lent = coefficients.part();
        let details = sagivelume::level(self.n, self.j, lent);
        // The part has to be one of the lent coefficients themselves: where it begins is told by its address.
        let start = (details.as_ptr().addr().wrapping_sub(lent.as_ptr().addr())) / size_of::<i32>();
        Given::new(Head::Stretch { start, length: details.len() }).shown(details).read(&coefficients)
    }

    fn outcome(&self, head: &Head) -> String {
        let empty = matches!(head, Head::Stretch { length: 0, .. });
        String::from(if empty { "an empty part" } else { "details" })
    }
}
