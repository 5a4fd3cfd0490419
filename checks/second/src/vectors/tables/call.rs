//! A call on a table as text, and its answer.
//!
//! `1 n readings coefficients codes` is making, `2 n coefficients codes hours` is turning back, `3 n j coefficients` is
//! one level, whose answer is the first place of the stretch and its length. `4 n` asks for the places of a table and
//! for the bytes of its record; the answer is these two numbers.

use crate::hours::places;
use crate::level::level;
use crate::record::record_bytes;
use crate::refusal::Refusal;
use crate::sound::turn_back;
use crate::table::make;
use crate::vectors::{before, bytes_before, content, head, lent, lines, numbers, outcome, Vector};

/// A call, with what its buffers hold before.
#[derive(Clone, Debug)]
pub enum Call {
    /// Making a table.
    Make {
        /// The hours of the series.
        n: u64,
        /// Only read.
        readings: Vec<i32>,
        /// Written.
        coefficients: Vec<i32>,
        /// Written.
        codes: Vec<u8>,
    },
    /// Turning a table back.
    TurnBack {
        /// The hours of the series.
        n: u64,
        /// Only read.
        coefficients: Vec<i32>,
        /// Only read.
        codes: Vec<u8>,
        /// Written.
        hours: Vec<i32>,
    },
    /// One level of details.
    Level {
        /// The hours of the series.
        n: u64,
        /// The level.
        j: u64,
        /// Only read.
        coefficients: Vec<i32>,
    },
    /// The places of a table of so many hours, and the bytes of its record.
    Sizes(u64),
}

impl Vector for Call {
    fn lines(&self) -> Vec<u8> {
        match self {
            Call::Make { n, readings, coefficients, codes } => {
                lines(&[numbers(&[1, *n as i64]), lent(readings), lent(coefficients), lent(codes)])
            }
            Call::TurnBack { n, coefficients, codes, hours } => {
                lines(&[numbers(&[2, *n as i64]), lent(coefficients), lent(codes), lent(hours)])
            }
            Call::Level { n, j, coefficients } => lines(&[numbers(&[3, *n as i64, *j as i64]), lent(coefficients)]),
            Call::Sizes(n) => lines(&[numbers(&[4, *n as i64])]),
        }
    }

    fn answer(self) -> (String, Vec<u8>) {
        match self {
            Call::Make { n, readings, mut coefficients, mut codes } => {
                let answered = make(n, &readings, &mut coefficients, &mut codes);
                let written = [taking(&answered), content(&coefficients), content(&codes)];
                (outcome("make", &answered), lines(&written))
            }
            Call::TurnBack { n, coefficients, codes, mut hours } => {
                let answered = turn_back(n, &coefficients, &codes, &mut hours);
                (outcome("turn_back", &answered), lines(&[taking(&answered), content(&hours)]))
            }
            Call::Level { n, j, coefficients } => {
                let stretch = level(n, j, &coefficients);
                let found = if stretch.length == 0 { "level of length 0" } else { "level found" };
                (String::from(found), lines(&[numbers(&[stretch.start as i64, stretch.length as i64])]))
            }
            Call::Sizes(n) => {
                let told = if places(n) == 0 { "sizes of no series" } else { "sizes told" };
                (String::from(told), lines(&[numbers(&[places(n) as i64, record_bytes(n) as i64])]))
            }
        }
    }
}

/// The answer of a call that tells nothing but its refusal.
fn taking(answered: &Result<(), Refusal>) -> Vec<String> {
    head(&answered.map(|()| Vec::new()), 0)
}

/// Making with so many coefficients and codes lent.
pub(super) fn making(n: u64, readings: &[i32], coefficients: usize, codes: usize) -> Call {
    Call::Make { n, readings: readings.to_vec(), coefficients: before(coefficients), codes: bytes_before(codes) }
}

/// Turning back with so many hours lent.
pub(super) fn turning_back(n: u64, coefficients: &[i32], codes: &[u8], hours: usize) -> Call {
    Call::TurnBack { n, coefficients: coefficients.to_vec(), codes: codes.to_vec(), hours: before(hours) }
}

/// One level with so many coefficients lent.
pub(super) fn one_level(n: u64, j: u64, coefficients: usize) -> Call {
    Call::Level { n, j, coefficients: before(coefficients) }
}
