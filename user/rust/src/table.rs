//! Making a table, turning it back, and one level of its details.

use crate::linked;
use crate::refusal::Refusal;

/// What an hour without a reading holds. In a table it marks a node of which neither half has readings.
///
/// ```
/// assert_eq!(sagivelume::GAP, 2_000_003);
/// ```
pub const GAP: i32 = 2_000_003;

/// The largest reading in grams; the least is as far below 0.
///
/// ```
/// use sagivelume::LARGEST_READING;
///
/// let (mut coefficients, mut codes) = ([0; 2], [0; 1]);
/// sagivelume::make(2, &[-LARGEST_READING, LARGEST_READING], &mut coefficients, &mut codes)?;
/// assert_eq!(coefficients, [-1_000_000, 1_000_000]);
/// # Ok::<(), sagivelume::Refusal>(())
/// ```
pub const LARGEST_READING: i32 = 1_000_000;

/// Makes the table of the first n readings: writes P coefficients and P/2 codes.
///
/// Needs n readings and room for P coefficients and P/2 codes. [Refusals](Refusal) 1, 3, 2.
///
/// ```
/// use sagivelume::{Refusal, GAP};
///
/// let readings = [41_200, 41_350, GAP, 40_900, 32_760, 32_790, GAP];
/// let (mut coefficients, mut codes) = ([0; 8], [0; 4]);
/// sagivelume::make(7, &readings, &mut coefficients, &mut codes)?;
/// assert_eq!(coefficients, [32_760, 41_350, 8_140, 8_560, 300, 450, 2_000_001, 2_000_001]);
/// assert_eq!(codes, [1, 3, 1, 4]);
///
/// let refused = sagivelume::make(2, &[0, 1_000_001], &mut coefficients, &mut codes);
/// assert_eq!(refused, Err(Refusal { number: Refusal::BAD_READING, place: 1 }));
/// # Ok::<(), Refusal>(())
/// ```
pub fn make(n: usize, readings: &[i32], coefficients: &mut [i32], codes: &mut [u8]) -> Result<(), Refusal> {
    linked::make(n, readings, coefficients, codes).taken()
}

/// Turns a table back: writes the n hours of its series.
///
/// Needs P coefficients, P/2 codes and room for n hours. [Refusals](Refusal) 1, 3, 4.
///
/// ```
/// use sagivelume::{Refusal, GAP};
///
/// let mut hours = [0; 3];
/// sagivelume::turn_back(3, &[5, 9, -4, -2], &[1, 2], &mut hours)?;
/// assert_eq!(hours, [5, 7, 9]);
/// sagivelume::turn_back(3, &[GAP; 4], &[4, 4], &mut hours)?;
/// assert_eq!(hours, [GAP; 3]);
///
/// let refused = sagivelume::turn_back(2, &[5, 5], &[1], &mut hours);
/// assert_eq!(refused, Err(Refusal { number: Refusal::UNSOUND, place: 1 }));
/// # Ok::<(), Refusal>(())
/// ```
pub fn turn_back(n: usize, coefficients: &[i32], codes: &[u8], hours: &mut [i32]) -> Result<(), Refusal> {
    linked::turn_back(n, coefficients, codes, hours).taken()
}

/// The details of level j: places 2·2^j to 4·2^j − 1 of the coefficients, for j up to l − 2, low detail and high detail
/// of each node in turn. Any other level, and the causes of refusals 1 and 3, give an empty part.
///
/// ```
/// let coefficients = [32_760, 41_350, 8_140, 8_560, 300, 450, 2_000_001, 2_000_001];
/// assert_eq!(sagivelume::level(7, 0, &coefficients), [8_140, 8_560]);
/// assert_eq!(sagivelume::level(7, 1, &coefficients), [300, 450, 2_000_001, 2_000_001]);
/// assert_eq!(sagivelume::level(7, 2, &coefficients), []);
/// ```
pub fn level(n: usize, j: usize, coefficients: &[i32]) -> &[i32] {
    linked::level(n, j, coefficients).of(coefficients)
}

/// A part of a lent slice.
#[repr(C)]
pub(crate) struct Stretch {
    start: usize,
    length: usize,
}

impl Stretch {
    /// The part itself.
    pub(crate) fn of<T>(self, lent: &[T]) -> &[T] {
        &lent[self.start..][..self.length]
    }
}
