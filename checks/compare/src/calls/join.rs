//! Joining two answers.

use sagivelume::{Answer, Reading, Summary};

use super::{answer_fields, Call};
use crate::columns::FAR;
use crate::drawing::Drawing;
use crate::given::{Given, Head};
use crate::line::Line;
use crate::numbers::Drawn;

/// `join | left | right`
pub struct Join {
    left: Answer,
    right: Answer,
}

/// An answer of which no two fields are alike, so that each shows its place.
fn counted(hour: usize, grams: i32) -> Answer {
    let reading =
        |more: i32| Reading { hour: hour.wrapping_add(more as usize), grams: grams.wrapping_add(more) };
    let (low, high) = (grams.wrapping_add(2), grams.wrapping_add(3));
    Some(Summary { first: reading(0), last: reading(1), low, high })
}

/// Any answer, also one that no column gives: joining checks nothing.
fn draw_answer(random: &mut Drawing) -> Answer {
    if random.once_in(5) {
        return None;
    }
    let far = random.once_in(8);
    let mut reading = || Reading {
        hour: if far { random.one_of(&FAR) } else { random.below(16_384) as usize },
        grams: i32::draw(random),
    };
    let (first, last) = (reading(), reading());
    Some(Summary { first, last, low: i32::draw(random), high: i32::draw(random) })
}

impl Call for Join {
    const NAME: &'static str = "join";
    const OUTCOMES: &'static [&'static str] =
        &["two answers", "the left alone", "the right alone", "no reading"];

    fn edges() -> Vec<Join> {
        let hours = [0, 1, 16_383, 1 << 32, usize::MAX];
        let grams = [0, -1, 1_000_000, -1_000_000, 2_000_003, i32::MIN, i32::MAX];
        let answers: Vec<Answer> = hours
            .into_iter()
            .flat_map(|hour| grams.map(|grams| counted(hour, grams)))
            .chain([None])
            .collect();
        let pairs = answers.iter().flat_map(|&left| answers.iter().map(move |&right| Join { left, right }));
        pairs.collect()
    }

    fn draw(random: &mut Drawing) -> Join {
        Join { left: draw_answer(random), right: draw_answer(random) }
    }

    fn line(&self) -> String {
        Line::call(Join::NAME).fields(&answer_fields(self.left)).fields(&answer_fields(self.right)).end()
    }

    fn given(&self) -> Given {
        Given::new(Head::Taken(answer_fields(sagivelume::join(self.left, self.right)).into()))
    }

    fn outcome(&self, _: &Head) -> String {
        let outcome = match (self.left, self.right) {
            (Some(_), Some(_)) => "two answers",
            (Some(_), None) => "the left alone",
            (None, Some(_)) => "the right alone",
            (None, None) => "no reading",
        };
        String::from(outcome)
    }
}
