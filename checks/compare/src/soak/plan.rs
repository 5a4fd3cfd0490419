//! The parts of a soak.

use second::random::Random;

use super::Soak;
use crate::compared::{Compared, Difference};
use crate::drawing::Drawing;

/// The calls of each kind in a round.
const CALLS_A_ROUND: usize = 100;

/// All parts of a soak.
#[derive(Debug, PartialEq, Eq)]
pub struct Plan {
    /// Of the edge calls of a kind the first is made and then every `step`-th.
    step: usize,
    /// The edge calls made of each kind.
    edges: Vec<usize>,
    /// The calls of a whole round.
    round: usize,
    /// All drawn calls.
    drawn: usize,
}

/// One part of a soak.
#[derive(Debug, PartialEq, Eq)]
pub enum Part {
    /// Edge calls of one kind.
    Edges {
        /// The place of the kind among the kinds.
        kind: usize,
        /// The first is made and then every `step`-th.
        step: usize,
        /// How many.
        calls: usize,
    },
    /// A round of drawn calls.
    Round {
        /// Its number, from 0.
        number: usize,
        /// The calls of all kinds.
        calls: usize,
    },
}

impl Plan {
    /// All edge calls and then drawn ones. Where all edge calls would be more than half of the calls, only every
    /// second of them is made, or every third, and so on.
    pub fn of(soak: &Soak) -> Plan {
        let edges: Vec<usize> = soak.kinds.iter().map(|kind| (kind.edges)()).collect();
        Plan::with_edges(&edges, soak.calls)
    }

    /// The same, for kinds that have so many edge calls.
    fn with_edges(edges: &[usize], calls: usize) -> Plan {
        let step = edges.iter().sum::<usize>().div_ceil((calls / 2).max(1)).max(1);
        let mut drawn = calls;
        let mut edges: Vec<usize> = edges.iter().map(|edges| edges.div_ceil(step)).collect();
        for edges in &mut edges {
            *edges = drawn.min(*edges);
            drawn -= *edges;
        }
        let round = CALLS_A_ROUND * edges.len();
        Plan { step, edges, round, drawn }
    }

    /// The part with this number, from 0, if there are so many.
    pub fn part(&self, number: usize) -> Option<Part> {
        if let Some(&calls) = self.edges.get(number) {
            return Some(Part::Edges { kind: number, step: self.step, calls });
        }
        let number = number - self.edges.len();
        let left = self.drawn.checked_sub(number.checked_mul(self.round)?).filter(|&left| left > 0)?;
        Some(Part::Round { number, calls: left.min(self.round) })
    }
}

impl Part {
    /// Compares the calls of this part and tells of each, with the place of its kind.
    pub fn run(self, soak: &Soak, mut told: impl FnMut(usize, Result<Compared, Box<Difference>>)) {
        match self {
            Part::Edges { kind, step, calls } => {
                (soak.kinds[kind].soak_edges)(step, calls, &mut |compared| told(kind, compared));
            }
            Part::Round { number, calls } => {
                let mut random = Drawing::new(seed_of_round(soak.seed, number));
                let (each, more) = (calls / soak.kinds.len(), calls % soak.kinds.len());
                for (place, kind) in soak.kinds.iter().enumerate() {
                    let calls = each + usize::from(place < more);
                    (kind.soak_drawn)(&mut random, calls, &mut |compared| told(place, compared));
                }
            }
        }
    }
}

/// The seed of a round, which no other round of the same soak has.
fn seed_of_round(seed: u64, number: usize) -> u64 {
    let mixed = Random::new(seed).draw();
    Random::new(mixed.wrapping_add(number as u64)).draw()
}

#[cfg(test)]
mod tests {
    use super::*;

    fn parts(edges: &[usize], calls: usize) -> Vec<Part> {
        let plan = Plan::with_edges(edges, calls);
        (0..).map_while(|number| plan.part(number)).collect()
    }

    #[test]
    fn edge_calls_come_first_and_then_rounds() {
        let expected = [
            Part::Edges { kind: 0, step: 1, calls: 30 },
            Part::Edges { kind: 1, step: 1, calls: 5 },
            Part::Round { number: 0, calls: 200 },
            Part::Round { number: 1, calls: 200 },
            Part::Round { number: 2, calls: 65 },
        ];
        assert_eq!(parts(&[30, 5], 500), expected);
    }

    #[test]
    fn at_most_half_are_edge_calls() {
        let expected = [
            Part::Edges { kind: 0, step: 3, calls: 10 },
            Part::Edges { kind: 1, step: 3, calls: 2 },
            Part::Round { number: 0, calls: 14 },
        ];
        assert_eq!(parts(&[30, 5], 26), expected);
    }

    #[test]
    fn the_calls_are_as_many_as_asked_for() {
        for calls in (0..600).chain([1_300, 7_777]) {
            let planned: usize = parts(&[30, 5, 700], calls)
                .iter()
                .map(|part| match *part {
                    Part::Edges { calls, .. } | Part::Round { calls, .. } => calls,
                })
                .sum();
            assert_eq!(planned, calls);
        }
    }
}
