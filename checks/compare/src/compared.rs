//! Comparing one call, and a kind of call.

use std::cmp::Ordering;
use std::fmt;
use std::iter::successors;
use std::panic::{catch_unwind, AssertUnwindSafe};

use second::answer::answer;

use crate::calls::Call;
use crate::drawing::Drawing;
use crate::given::{Given, Head};
use crate::tally::Tally;

/// A call that gave the same on both sides.
pub struct Compared {
    /// Its outcome.
    pub outcome: String,
    /// Its buffers, all with their guards as they were, and their lengths against what the call needs.
    pub lent: Vec<(&'static str, Ordering)>,
    /// What was drawn for it.
    pub notes: Vec<&'static str>,
}

/// A call on which the two sides differ, or that changed what it may not.
#[derive(Clone, Debug, PartialEq, Eq)]
pub struct Difference {
    call: String,
    proved: String,
    second: String,
    faults: Vec<String>,
}

impl fmt::Display for Difference {
    fn fmt(&self, f: &mut fmt::Formatter<'_>) -> fmt::Result {
        writeln!(f, "difference; the call is a line for `second answer`:")?;
        writeln!(f, "{}", self.call)?;
        writeln!(f, "the proved store gives:")?;
        writeln!(f, "{}", self.proved)?;
        writeln!(f, "the second program gives:")?;
        write!(f, "{}", self.second)?;
        self.faults.iter().try_for_each(|fault| write!(f, "\n{fault}"))
    }
}

/// Compares one call.
pub fn compare_one<C: Call>(call: &C) -> Result<Compared, Box<Difference>> {
    let line = call.line();
    let second = answer(line.as_bytes());
    let given = catch_unwind(AssertUnwindSafe(|| call.given())).unwrap_or_else(|_| Given::new(Head::Panicked));
    if given.answer == second && given.faults.is_empty() {
        Ok(Compared { outcome: call.outcome(&given.head), lent: given.lent, notes: vec![] })
    } else {
        Err(Box::new(Difference { call: line, proved: given.answer, second, faults: given.faults }))
    }
}

/// Compares the edge calls of one kind and then this many drawn ones, each with those that belong to it, up to the
/// first difference. Each kind draws from the seed anew, so that a kind's calls do not depend on the kinds before it.
pub fn compare<C: Call>(seed: u64, calls: usize) -> Result<Tally, Box<Difference>> {
    let mut random = Drawing::new(seed);
    let mut tally = Tally::new(C::NAME, C::OUTCOMES);
    for call in C::edges() {
        tally.count(compare_one(&call)?);
    }
    for _ in 0..calls {
        for compared in drawn::<C>(&mut random) {
            tally.count(compared?);
        }
    }
    Ok(tally)
}

/// Draws a call and compares it and those that belong to it, one at a time as they are asked for.
pub fn drawn<C: Call>(random: &mut Drawing) -> impl Iterator<Item = Result<Compared, Box<Difference>>> {
    let call = C::draw(random);
    let mut notes = random.notes();
    successors(Some(call), C::next).map(move |call| {
        let notes = std::mem::take(&mut notes);
        compare_one(&call).map(|compared| Compared { notes, ..compared })
    })
}

#[cfg(test)]
mod tests {
    use super::*;
    use crate::lent::Lent;

    /// Answers as it should, but writes into a buffer that is lent to be read.
    struct Scribbling;

    impl Call for Scribbling {
        const NAME: &'static str = "day_change";
        const OUTCOMES: &'static [&'static str] = &["taken"];

        fn edges() -> Vec<Scribbling> {
            vec![Scribbling]
        }

        fn draw(_: &mut Drawing) -> Scribbling {
            Scribbling
        }

        fn line(&self) -> String {
            String::from("day_change 2 0 | 7 9 | 1")
        }

        fn given(&self) -> Given {
            let mut codes = Lent::holding("codes", &[1], Some(1));
            codes.part_mut()[0] = 0_u8;
            Given::new(Head::Taken(vec![String::from("2")])).read(&codes)
        }
    }

    #[test]
    fn a_change_that_is_not_answered_is_a_difference() {
        let difference = compare::<Scribbling>(1, 1).expect_err("a difference").to_string();
        assert!(difference.ends_with("taken 2\ncodes changed, which the call only reads"), "{difference}");
    }
}
