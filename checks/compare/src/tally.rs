//! What came of the calls of one kind: how often each outcome occurred, how long its buffers were, and what was drawn.

use std::cmp::Ordering;
use std::collections::BTreeMap;
use std::fmt;

use crate::compared::Compared;

/// How often a lent buffer was shorter than needed, just as long, and longer.
#[derive(Clone, Copy, Debug, Default, PartialEq, Eq)]
pub struct Lengths {
    /// Shorter than needed.
    pub short: usize,
    /// Just as long as needed.
    pub exact: usize,
    /// Longer than needed.
    pub long: usize,
}

impl Lengths {
    fn count(&mut self, length: Ordering) {
        match length {
            Ordering::Less => self.short += 1,
            Ordering::Equal => self.exact += 1,
            Ordering::Greater => self.long += 1,
        }
    }

    fn add(&mut self, more: Lengths) {
        self.short += more.short;
        self.exact += more.exact;
        self.long += more.long;
    }
}

/// The calls of one kind, counted.
#[derive(Clone, Debug, PartialEq, Eq)]
pub struct Tally {
    name: &'static str,
    listed: &'static [&'static str],
    seen: BTreeMap<String, usize>,
    lengths: BTreeMap<&'static str, Lengths>,
    drawn: BTreeMap<&'static str, usize>,
    differences: usize,
}

impl Tally {
    /// Of no call of a kind yet, whose name and outcomes these are.
    pub fn new(name: &'static str, listed: &'static [&'static str]) -> Tally {
        let (seen, lengths, drawn) = (BTreeMap::new(), BTreeMap::new(), BTreeMap::new());
        Tally { name, listed, seen, lengths, drawn, differences: 0 }
    }

    /// Counts a call that gave the same on both sides.
    pub fn count(&mut self, compared: Compared) {
        *self.seen.entry(compared.outcome).or_default() += 1;
        for (buffer, length) in compared.lent {
            self.lengths.entry(buffer).or_default().count(length);
        }
        for drawn in compared.notes {
            *self.drawn.entry(drawn).or_default() += 1;
        }
    }

    /// Counts a call on which the two sides differ.
    pub fn count_difference(&mut self) {
        self.differences += 1;
    }

    /// Counts what was counted elsewhere of the same kind.
    pub fn add(&mut self, more: Tally) {
        for (outcome, times) in more.seen {
            *self.seen.entry(outcome).or_default() += times;
        }
        for (buffer, lengths) in more.lengths {
            self.lengths.entry(buffer).or_default().add(lengths);
        }
        for (drawn, times) in more.drawn {
            *self.drawn.entry(drawn).or_default() += times;
        }
        self.differences += more.differences;
    }

    /// The name of the kind.
    pub fn name(&self) -> &'static str {
        self.name
    }

    /// All calls.
    pub fn calls(&self) -> usize {
        self.seen.values().sum::<usize>() + self.differences
    }

    /// The calls on which the two sides differ.
    pub fn differences(&self) -> usize {
        self.differences
    }

    /// How often each listed outcome occurred.
    pub fn outcomes(&self) -> impl Iterator<Item = (&'static str, usize)> + '_ {
        self.listed.iter().map(|&outcome| (outcome, self.seen.get(outcome).copied().unwrap_or(0)))
    }

    /// The lengths of each lent buffer of which something was needed.
    pub fn lengths(&self) -> impl Iterator<Item = (&'static str, Lengths)> + '_ {
        self.lengths.iter().map(|(&buffer, &lengths)| (buffer, lengths))
    }

    /// How often this was drawn.
    pub fn drawn(&self, note: &str) -> usize {
        self.drawn.get(note).copied().unwrap_or(0)
    }

    /// A line for each outcome that never occurred, for each that did and is not listed, and for each buffer that was
    /// never too short, never just long enough or never longer.
    pub fn lacking(&self) -> Vec<String> {
        let name = self.name;
        let never = self.listed.iter().filter(|&&outcome| !self.seen.contains_key(outcome));
        let unlisted = self.seen.keys().filter(|seen| !self.listed.contains(&seen.as_str()));
        let lengths = self.lengths().flat_map(|(buffer, Lengths { short, exact, long })| {
            let times = [(short, "too short"), (exact, "just long enough"), (long, "longer than needed")];
            times.into_iter().filter(|&(times, _)| times == 0).map(move |(_, length)| (buffer, length))
        });
        never
            .map(|outcome| format!("{name}: `{outcome}` never occurred"))
            .chain(unlisted.map(|seen| format!("{name}: `{seen}` occurred, which this call cannot have")))
            .chain(lengths.map(|(buffer, length)| format!("{name}: {buffer} never {length}")))
            .collect()
    }
}

impl fmt::Display for Tally {
    fn fmt(&self, f: &mut fmt::Formatter<'_>) -> fmt::Result {
        let outcomes: Vec<String> = self.outcomes().map(|(outcome, times)| format!("{times} {outcome}")).collect();
        write!(f, "{} {} calls: {}", self.name, self.calls(), outcomes.join(", "))
    }
}

#[cfg(test)]
mod tests {
    use super::*;

    fn compared(outcome: &str, length: Ordering) -> Compared {
        Compared { outcome: String::from(outcome), lent: vec![("codes", length)], notes: vec!["all gaps"] }
    }

    #[test]
    fn what_lacks_is_told() {
        let mut tally = Tally::new("make", &["taken", "refused 1"]);
        tally.count(compared("taken", Ordering::Equal));
        tally.count(compared("taken", Ordering::Greater));
        tally.count(compared("refused 4", Ordering::Equal));
        assert_eq!(tally.to_string(), "make 3 calls: 2 taken, 0 refused 1");
        let lacking = [
            "make: `refused 1` never occurred",
            "make: `refused 4` occurred, which this call cannot have",
            "make: codes never too short",
        ];
        assert_eq!(tally.lacking(), lacking);
    }

    #[test]
    fn tallies_add_up() {
        let tally_of = |calls: &[(&str, Ordering)]| {
            let mut tally = Tally::new("make", &["taken"]);
            calls.iter().for_each(|&(outcome, length)| tally.count(compared(outcome, length)));
            tally.count_difference();
            tally
        };
        let mut sum = tally_of(&[("taken", Ordering::Less)]);
        sum.add(tally_of(&[("taken", Ordering::Less), ("refused 1", Ordering::Greater)]));
        assert_eq!((sum.calls(), sum.differences(), sum.drawn("all gaps")), (5, 2, 3));
        assert!(sum.outcomes().eq([("taken", 2)]));
        assert!(sum.lengths().eq([("codes", Lengths { short: 2, exact: 0, long: 1 })]));
    }
}
