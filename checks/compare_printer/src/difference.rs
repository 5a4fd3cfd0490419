//! A difference, and how it is shown in short.

use std::fmt;

use crate::feeding::Feeding;

/// So many bytes are shown of an input, and of what is printed.
const SHOWN: usize = 60;

/// So many bytes are shown before the first that differs.
const BEFORE: usize = 20;

/// What was not as it should be.
#[derive(Clone, Debug, PartialEq, Eq)]
pub enum What {
    /// Something else was printed.
    Printed {
        /// What the second program prints.
        expected: Vec<u8>,
        /// What the printer printed.
        printed: Vec<u8>,
    },
    /// The printer ended before it had read its whole input.
    EndedEarly,
    /// It printed what it should, and ended with another status than 0.
    Status(String),
    /// It did not end and was stopped.
    Stopped,
    /// It could not be run.
    NotRun(String),
}

impl What {
    /// Whether it would be the same on every input, at the price of much time.
    pub fn is_hopeless(&self) -> bool {
        matches!(self, What::Stopped | What::NotRun(_))
    }
}

/// A run that was not as it should be.
pub struct Difference {
    /// The input.
    pub input: Vec<u8>,
    /// How it was fed.
    pub feeding: Feeding,
    /// What was not as it should be.
    pub what: What,
}

/// Some bytes as one line, at most so many of them, from a place on.
fn shown(bytes: &[u8], from: usize) -> String {
    let part = &bytes[from.min(bytes.len())..];
    let ends = if part.len() > SHOWN { "..." } else { "" };
    let begins = if from > 0 { "..." } else { "" };
    format!("\"{begins}{}{ends}\"", part[..part.len().min(SHOWN)].escape_ascii())
}

impl fmt::Display for What {
    fn fmt(&self, f: &mut fmt::Formatter<'_>) -> fmt::Result {
        match self {
            What::Printed { expected, printed } => {
                let same = expected.iter().zip(printed).take_while(|(one, other)| one == other).count();
                let from = same.saturating_sub(BEFORE);
                let (expected_part, printed_part) = (shown(expected, from), shown(printed, from));
                let (of_expected, of_printed) = (expected.len(), printed.len());
                writeln!(f, "differs at byte {same}")?;
                writeln!(f, "  expected {expected_part}, {of_expected} bytes in all")?;
                write!(f, "  printed  {printed_part}, {of_printed} bytes in all")
            }
            What::EndedEarly => write!(f, "ended before it had read its whole input"),
            What::Status(status) => write!(f, "ended with {status}"),
            What::Stopped => write!(f, "did not end and was stopped"),
            What::NotRun(error) => write!(f, "could not be run: {error}"),
        }
    }
}

impl fmt::Display for Difference {
    fn fmt(&self, f: &mut fmt::Formatter<'_>) -> fmt::Result {
        let Difference { input, feeding, what } = self;
        write!(f, "input {} of {} bytes, fed {}: {what}", shown(input, 0), input.len(), feeding.name())
    }
}

#[cfg(test)]
mod tests {
    use super::*;

    #[test]
    fn the_place_of_a_difference_is_shown() {
        let expected: Vec<u8> = (0..200).map(|k| b'a' + k % 26).collect();
        let mut printed = expected.clone();
        printed[100] = b'\n';
        let what = What::Printed { expected, printed };
        let shown = Difference { input: vec![b'5'; 61], feeding: Feeding::AtOnce, what }.to_string();
        let fives = "5".repeat(60);
        assert!(shown.starts_with(&format!("input \"{fives}...\" of 61 bytes, fed at once: differs at byte 100\n")));
        assert!(shown.contains("  expected \"...cdefghijklmnopqrstuvwxyz"), "{shown}");
        assert!(shown.contains("uv\\nxyz"), "{shown}");
    }
}
