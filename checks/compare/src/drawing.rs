//! Drawing: the seeded generator, with notes of what was drawn, so that a tally can show that it was.

use std::ops::{Deref, DerefMut};

use second::random::Random;

/// The generator, which it can be used as, and the notes taken since they were last asked for.
pub struct Drawing {
    random: Random,
    notes: Vec<&'static str>,
}

impl Drawing {
    /// Draws the same for the same seed.
    pub fn new(seed: u64) -> Drawing {
        Drawing { random: Random::new(seed), notes: vec![] }
    }

    /// Notes what was drawn, by a name that stands in one of the topics.
    pub fn note(&mut self, drawn: &'static str) {
        self.notes.push(drawn);
    }

    /// The notes taken since this was last asked, none of them twice.
    pub fn notes(&mut self) -> Vec<&'static str> {
        self.notes.sort_unstable();
        self.notes.dedup();
        std::mem::take(&mut self.notes)
    }
}

impl Deref for Drawing {
    type Target = Random;

    fn deref(&self) -> &Random {
        &self.random
    }
}

impl DerefMut for Drawing {
    fn deref_mut(&mut self) -> &mut Random {
        &mut self.random
    }
}

/// Names that belong together, each of which a kind of call that draws one of them should draw.
pub struct Topic {
    /// What they are names of.
    pub name: &'static str,
    /// The names, found in no other topic.
    pub drawn: &'static [&'static str],
}
