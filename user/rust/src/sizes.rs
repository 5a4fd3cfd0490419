//! How much to lend for a series, the largest series, and buffers that serve every series.

use crate::linked;

/// How many coefficients the table of n hours has, P; it has half as many codes. 0 where n is 0 or over 16,384.
///
/// ```
/// let readings = [41_200, 41_350, 40_900];
/// let p = sagivelume::places(readings.len());
/// let (mut coefficients, mut codes) = (vec![0; p], vec![0; p / 2]);
/// sagivelume::make(readings.len(), &readings, &mut coefficients, &mut codes)?;
/// assert_eq!((p, sagivelume::places(0)), (4, 0));
/// # Ok::<(), sagivelume::Refusal>(())
/// ```
pub fn places(n: usize) -> usize {
    linked::places(n)
}

/// How many bytes the record of n hours has. 0 where n is 0 or over 16,384.
///
/// ```
/// assert_eq!(sagivelume::record_bytes(2), 14);
/// assert_eq!(sagivelume::record_bytes(16_385), 0);
/// ```
pub fn record_bytes(n: usize) -> usize {
    linked::record_bytes(n)
}

/// The most hours of a series, the largest n.
///
/// ```
/// use sagivelume::{Refusal, LARGEST_HOURS};
///
/// let (mut coefficients, mut codes) = ([0; sagivelume::MOST_COEFFICIENTS], [0; sagivelume::MOST_CODES]);
/// sagivelume::make(LARGEST_HOURS, &[7; LARGEST_HOURS], &mut coefficients, &mut codes)?;
///
/// let refused = sagivelume::make(LARGEST_HOURS + 1, &[7; LARGEST_HOURS + 1], &mut coefficients, &mut codes);
/// assert_eq!(refused, Err(Refusal { number: Refusal::BAD_HOURS, place: 0 }));
/// # Ok::<(), Refusal>(())
/// ```
pub const LARGEST_HOURS: usize = 16_384;

/// The coefficients of the largest table.
///
/// ```
/// // A buffer for the coefficients of any table.
/// let coefficients = [0; sagivelume::MOST_COEFFICIENTS];
/// assert_eq!(coefficients.len(), 16_384);
/// ```
pub const MOST_COEFFICIENTS: usize = LARGEST_HOURS;

/// The codes of the largest table.
///
/// ```
/// assert_eq!(sagivelume::MOST_CODES, sagivelume::MOST_COEFFICIENTS / 2);
/// ```
pub const MOST_CODES: usize = MOST_COEFFICIENTS / 2;

/// The bytes of the largest record.
///
/// ```
/// let mut record = [0; sagivelume::MOST_RECORD_BYTES];
/// let length = sagivelume::write_record(2, &[-1, 500], &[0], &mut record)?;
/// assert_eq!(sagivelume::open_record(&record[..length])?.hours(), 2);
/// # Ok::<(), sagivelume::Refusal>(())
/// ```
pub const MOST_RECORD_BYTES: usize = 7 + 3 * MOST_COEFFICIENTS + MOST_CODES;
