//! An input of the printer as text, and what is printed.
//!
//! `LENGTH PIECE` and a line feed, then LENGTH bytes, the input, directly followed by the next. PIECE is the size of
//! the pieces in which the input is handed over, the last maybe shorter; it is never 0. The answer is what the printer
//! prints, and then an empty line.

use crate::printer::print;
use crate::vectors::Vector;

/// An input, and the size of its pieces.
#[derive(Clone, Debug)]
pub struct Call {
    /// Any bytes.
    pub input: Vec<u8>,
    /// From 1 on.
    pub piece: usize,
}

impl Vector for Call {
    fn lines(&self) -> Vec<u8> {
        let head = format!("{} {}\n", self.input.len(), self.piece);
        [head.as_bytes(), &self.input].concat()
    }

    fn answer(self) -> (String, Vec<u8>) {
        let printed = print(&self.input);
        let outcome = outcome(&printed);
        (format!("print {outcome}"), [&printed[..], b"\n"].concat())
    }
}

/// What is printed for an input, in two words at most: `taken`, or `refused` and the number.
pub fn outcome(printed: &[u8]) -> String {
    let text = String::from_utf8_lossy(printed);
    match text.split_once(" at ") {
        Some((refused, _)) => String::from(refused),
        None => String::from("taken"),
    }
}
