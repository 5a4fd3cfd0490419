//! What came of calls of all kinds.

use super::TOLD_IN_FULL;
use crate::calls::Kind;
use crate::compared::{Compared, Difference};
use crate::tally::Tally;

/// The tallies of all kinds, and the first differences.
#[derive(Clone, Debug, PartialEq, Eq)]
pub struct Sum {
    tallies: Vec<Tally>,
    first_differences: Vec<Difference>,
}

impl Sum {
    /// Of no call yet.
    pub fn new(kinds: &[Kind]) -> Sum {
        let tallies = kinds.iter().map(|kind| Tally::new(kind.name, kind.outcomes)).collect();
        Sum { tallies, first_differences: vec![] }
    }

    /// Counts a call of the kind at this place.
    pub fn count(&mut self, kind: usize, compared: Result<Compared, Box<Difference>>) {
        match compared {
            Ok(compared) => self.tallies[kind].count(compared),
            Err(difference) => {
                self.tallies[kind].count_difference();
                if self.first_differences.len() < TOLD_IN_FULL {
                    self.first_differences.push(*difference);
                }
            }
        }
    }

    /// Counts the calls that come after these, and tells of each difference that is now one of the first.
    pub fn add(&mut self, more: Sum, mut told: impl FnMut(&Difference)) {
        for (tally, more) in self.tallies.iter_mut().zip(more.tallies) {
            tally.add(more);
        }
        let room = TOLD_IN_FULL - self.first_differences.len();
        for difference in more.first_differences.into_iter().take(room) {
            told(&difference);
            self.first_differences.push(difference);
        }
    }

    /// The tallies, in the order of the kinds.
    pub fn tallies(&self) -> &[Tally] {
        &self.tallies
    }

    /// All calls.
    pub fn calls(&self) -> usize {
        self.tallies.iter().map(Tally::calls).sum()
    }

    /// The calls on which the two sides differ.
    pub fn differences(&self) -> usize {
        self.tallies.iter().map(Tally::differences).sum()
    }
}
