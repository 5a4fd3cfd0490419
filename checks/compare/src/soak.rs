//! A soak: a number of calls of all kinds together, of which every difference is counted.
//!
//! Edge calls of every kind come first, then calls drawn in rounds, in each round as many of every kind. Threads take
//! the parts of this as they come to them. Each round draws from a seed of its own, and what came of the parts is put
//! together in their order, so that neither the calls nor what is told of them depends on the threads.

mod plan;
mod sum;

use std::collections::BTreeMap;
use std::sync::atomic::{AtomicUsize, Ordering};
use std::sync::mpsc::{channel, Receiver, RecvTimeoutError, Sender};
use std::thread;
use std::time::Duration;

use crate::calls::Kind;
use crate::compared::Difference;
use plan::Plan;

pub use sum::Sum;

/// At most so many differences are told in full.
pub const TOLD_IN_FULL: usize = 10;

/// At least this often it is told how far the soak is.
const MOMENT: Duration = Duration::from_millis(100);

/// What is told while the soak runs.
pub enum Event<'a> {
    /// How far it is.
    SoFar {
        /// The calls compared.
        calls: usize,
        /// Those of them on which the two sides differ.
        differences: usize,
    },
    /// One of the first differences.
    Difference(&'a Difference),
}

/// A soak to be made.
#[derive(Clone, Copy)]
pub struct Soak<'a> {
    /// The same seed and the same number of calls make the same calls.
    pub seed: u64,
    /// All calls of all kinds together.
    pub calls: usize,
    /// The kinds.
    pub kinds: &'a [Kind],
}

/// Where the threads are.
#[derive(Default)]
struct Counters {
    parts_taken: AtomicUsize,
    calls: AtomicUsize,
    differences: AtomicUsize,
}

impl Soak<'_> {
    /// Makes the soak in so many threads, and tells of it as it goes.
    pub fn run(&self, threads: usize, told: impl FnMut(Event)) -> Sum {
        let plan = Plan::of(self);
        let counters = Counters::default();
        let (sender, receiver) = channel();
        thread::scope(|scope| {
            for _ in 0..threads {
                let sender = sender.clone();
                scope.spawn(|| self.work(&plan, &counters, sender));
            }
            drop(sender);
            self.gather(&receiver, &counters, told)
        })
    }

    /// What one thread does: takes the next part that nobody has taken, until there is none.
    fn work(&self, plan: &Plan, counters: &Counters, sender: Sender<(usize, Sum)>) {
        loop {
            let number = counters.parts_taken.fetch_add(1, Ordering::Relaxed);
            let Some(part) = plan.part(number) else {
                return;
            };
            let mut sum = Sum::new(self.kinds);
            part.run(self, |kind, compared| {
                counters.calls.fetch_add(1, Ordering::Relaxed);
                counters.differences.fetch_add(usize::from(compared.is_err()), Ordering::Relaxed);
                sum.count(kind, compared);
            });
            sender.send((number, sum)).expect("the parts are gathered until no thread is left");
        }
    }

    /// Puts together what came of the parts, in their order.
    fn gather(&self, receiver: &Receiver<(usize, Sum)>, counters: &Counters, mut told: impl FnMut(Event)) -> Sum {
        let mut sum = Sum::new(self.kinds);
        let mut waiting = BTreeMap::new();
        let mut turn = 0;
        loop {
            match receiver.recv_timeout(MOMENT) {
                Ok((number, part)) => drop(waiting.insert(number, part)),
                Err(RecvTimeoutError::Timeout) => {}
                Err(RecvTimeoutError::Disconnected) => return sum,
            }
            while let Some(part) = waiting.remove(&turn) {
                sum.add(part, |difference| told(Event::Difference(difference)));
                turn += 1;
            }
            told(Event::SoFar {
                calls: counters.calls.load(Ordering::Relaxed),
                differences: counters.differences.load(Ordering::Relaxed),
            });
        }
    }
}

#[cfg(test)]
mod tests;
