//! Making a table.

use super::Call;
use crate::drawing::Drawing;
use crate::given::{Given, Head};
use crate::lent::Lent;
use crate::line::Line;
use crate::numbers::{draw_held, draw_lent_length, draw_n, draw_resized, Room, EDGES_OF_N, EDGE_LENGTHS};
use crate::series::{draw_series, edge_series, spoil, NO_READINGS};

/// `make n | readings | coefficients | codes`
pub struct Make {
    n: usize,
    readings: Vec<i32>,
    coefficients: Vec<i32>,
    codes: Vec<u8>,
}

impl Make {
    /// The table of all hours of a series, made in buffers that are just long enough.
    fn of(readings: &[i32]) -> Make {
        let n = readings.len();
        let room = Room::of(n);
        Make {
            n,
            readings: readings.to_vec(),
            coefficients: vec![-7; room.coefficients],
            codes: vec![77; room.codes],
        }
    }
}

impl Call for Make {
    const NAME: &'static str = "make";
    const OUTCOMES: &'static [&'static str] = &["taken", "refused 1", "refused 2", "refused 3"];

    fn edges() -> Vec<Make> {
        let mut calls = Vec::new();
        for readings in edge_series() {
            calls.push(Make::of(&readings));
        }
        // Every n at the edges, with each buffer in turn too short, just long enough and longer.
        for n in EDGES_OF_N {
            let room = Room::of(n);
            for length in EDGE_LENGTHS {
                for lengthened in 0..3 {
                    let as_lent = |buffer, needed| if buffer == lengthened { length(needed) } else { needed };
                    calls.push(Make {
                        n,
                        readings: vec![5; as_lent(0, room.hours)],
                        coefficients: vec![-7; as_lent(1, room.coefficients)],
                        codes: vec![77; as_lent(2, room.codes)],
                    });
                }
            }
        }
        // Each number that is no reading, in each hour of a short series and in the hour after it.
        for n in [1, 2, 3, 8] {
            for &held in NO_READINGS {
                for hour in 0..=n {
                    let mut call = Make::of(&vec![-1_000_000; n]);
                    call.readings.push(0);
                    call.readings[hour] = held;
                    calls.push(call);
                }
            }
        }
        calls
    }

    fn draw(random: &mut Drawing) -> Make {
        let n = draw_n(random);
        let room = Room::draw(random, n);
        let mut readings = draw_series(random, room.hours);
        if random.once_in(4) {
            spoil(random, &mut readings);
        }
        draw_resized(random, &mut readings);
        let coefficients = draw_lent_length(random, room.coefficients);
        let codes = draw_lent_length(random, room.codes);
        Make { n, readings, coefficients: draw_held(random, coefficients), codes: draw_held(random, codes) }
    }

    fn line(&self) -> String {
        let line = Line::call(Make::NAME).number(self.n);
        line.buffer(&self.readings).buffer(&self.coefficients).buffer(&self.codes).end()
    }

    fn given(&self) -> Given {
        let needed = Room::of_series(self.n);
        let readings = Lent::holding("readings", &self.readings, needed.map(|room| room.hours));
        let mut coefficients =
            Lent::holding("coefficients", &self.coefficients, needed.map(|room| room.coefficients));
        let mut codes = Lent::holding("codes", &self.codes, needed.map(|room| room.codes));
        let made = sagivelume::make(self.n, readings.part(), coefficients.part_mut(), codes.part_mut());
        Given::new(Head::of(made)).read(&readings).written(&coefficients).written(&codes)
    }
}
