//! The choice of inputs for the column printer and of the pieces in which they are handed to it.

mod call;
mod inputs;
mod long;

use std::collections::BTreeSet;

use crate::printer::print;
use crate::random::Random;

pub use call::{outcome, Call};

const SEED: u64 = 23;

/// An input is handed over in pieces of every size below, and whole, if it and what is printed for it have together at
/// most so many bytes.
const SHORT: usize = 1_000;
const PIECES: [usize; 4] = [1, 2, 3, 7];

/// From so many bytes on, it is handed over in pieces of one size.
const LONG: usize = 20_000;
const PIECES_OF_LONG: [usize; 4] = [1, 7, 4_096, 1_000_000];

/// All calls, in their order in the text.
pub fn calls() -> Vec<Call> {
    let mut calls = Vec::new();
    for (index, input) in inputs().into_iter().enumerate() {
        calls.extend(pieces(index, &input).into_iter().map(|piece| Call { input: input.clone(), piece }));
    }
    calls
}

/// The inputs, each once.
pub fn inputs() -> Vec<Vec<u8>> {
    let mut random = Random::new(SEED);
    let mut inputs = inputs::examples();
    inputs.extend(inputs::empty_lines());
    inputs.extend(inputs::first_lines());
    inputs.extend(inputs::windows());
    inputs.extend(inputs::hours());
    inputs.extend(inputs::bad_hours());
    inputs.extend(inputs::pairs_of_causes());
    inputs.extend((0..40).map(|_| inputs::drawn(&mut random)));
    inputs.extend(long::long_lines());
    inputs.extend(long::long_series());
    let mut before = BTreeSet::new();
    inputs.retain(|input| before.insert(input.clone()));
    inputs
}

/// The sizes of the pieces in which an input is handed over.
fn pieces(index: usize, input: &[u8]) -> Vec<usize> {
    let whole = input.len().max(1);
    let bytes = input.len() + print(input).len();
    if bytes <= SHORT {
        PIECES.into_iter().filter(|&piece| piece < whole).chain([whole]).collect()
    } else if bytes < LONG {
        vec![1, whole]
    } else {
        vec![PIECES_OF_LONG[index % PIECES_OF_LONG.len()]]
    }
}
