//! Tests of soaks, with a kind of call that is answered wrongly now and then.

use std::collections::BTreeSet;

use super::*;
use crate::calls::{Call, Join, Level, Open, KINDS};
use crate::drawing::Drawing;
use crate::given::{Given, Head};
use crate::TOPICS;

/// Joins an answer of these grams with none. Of negative grams what is given is wrong.
struct SometimesWrong(i32);

impl Call for SometimesWrong {
    const NAME: &'static str = "join";
    const OUTCOMES: &'static [&'static str] = &["taken"];

    fn edges() -> Vec<SometimesWrong> {
        (-3..4).map(SometimesWrong).collect()
    }

    fn draw(random: &mut Drawing) -> SometimesWrong {
        SometimesWrong(random.between(-9, 9))
    }

    fn line(&self) -> String {
        format!("join | 0 {grams} 1 {grams} 5 6 | - - - - - -", grams = self.0)
    }

    fn given(&self) -> Given {
        let grams = self.0.abs().to_string();
        Given::new(Head::Taken(["0", &grams, "1", &grams, "5", "6"].map(String::from).into()))
    }
}

/// What came of a soak, and the differences that were told of.
fn soaked(kinds: &[Kind], seed: u64, calls: usize, threads: usize) -> (Sum, Vec<String>) {
    let mut told = Vec::new();
    let sum = Soak { seed, calls, kinds }.run(threads, |event| {
        if let Event::Difference(difference) = event {
            told.push(difference.to_string());
        }
    });
    (sum, told)
}

#[test]
fn differences_are_counted_and_the_first_told() {
    let (sum, told) = soaked(&[Kind::of::<Join>(), Kind::of::<SometimesWrong>()], 1, 3_000, 1);
    assert_eq!(sum.calls(), 3_000);
    let [good, wrong] = sum.tallies() else { panic!("two kinds") };
    assert_eq!((good.differences(), wrong.differences()), (0, sum.differences()));
    assert!(sum.differences() > 200);
    assert!(wrong.outcomes().all(|(_, taken)| taken + wrong.differences() == wrong.calls()));

    assert_eq!(told.len(), TOLD_IN_FULL);
    let first = "difference; the call is a line for `second answer`:\n\
        join | 0 -3 1 -3 5 6 | - - - - - -\n\
        the proved store gives:\n\
        taken 0 3 1 3 5 6\n\
        the second program gives:\n\
        taken 0 -3 1 -3 5 6";
    assert_eq!(told[0], first);
}

#[test]
fn the_seed_alone_decides() {
    let kinds = [Kind::of::<Open>(), Kind::of::<SometimesWrong>(), Kind::of::<Level>(), Kind::of::<Join>()];
    let once = soaked(&kinds, 7, 4_000, 1);
    assert_eq!(once, soaked(&kinds, 7, 4_000, 1));
    assert_eq!(once, soaked(&kinds, 7, 4_000, 3));
    assert_ne!(once, soaked(&kinds, 8, 4_000, 1));
}

#[test]
fn it_is_told_how_far_the_soak_is() {
    let mut last = (0, 0);
    let kinds = [Kind::of::<SometimesWrong>()];
    let sum = Soak { seed: 2, calls: 500, kinds: &kinds }.run(2, |event| {
        if let Event::SoFar { calls, differences } = event {
            assert!(last.0 <= calls && last.1 <= differences);
            last = (calls, differences);
        }
    });
    assert_eq!(last, (500, sum.differences()));
}

/// A kind that draws something of a topic draws everything of it, and drawn buffers have every length.
#[test]
fn everything_is_drawn() {
    let without_edges = |kind| Kind { edges: || 0, soak_edges: |_, _, _| {}, ..kind };
    let kinds: Vec<Kind> = KINDS.iter().copied().map(without_edges).collect();
    let (sum, _) = soaked(&kinds, 3, 13 * 5_000, 2);
    for tally in sum.tallies() {
        for topic in TOPICS {
            let drawn: BTreeSet<&str> = topic.drawn.iter().copied().filter(|note| tally.drawn(note) > 0).collect();
            let lacking = topic.drawn.len() - drawn.len();
            assert!(drawn.is_empty() || lacking == 0, "{}: {} only {drawn:?}", tally.name(), topic.name);
        }
        assert!(tally.lengths().all(|(_, lengths)| lengths.short.min(lengths.exact).min(lengths.long) > 0));
    }
}
