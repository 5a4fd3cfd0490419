//! Rebuilding the series of an old scale's log.

use crate::linked;
use crate::refusal::Refusal;

/// Rebuilds the series of an old scale's log: writes n hours.
///
/// In each hour the log has a count, the weight modulo 65,536, and a flag, 1 if the hour was recorded and 0 if not; the
/// count of an hour that was not is not looked at. `start` is the weight at the first recorded hour; if there is none,
/// it is not looked at. From a recorded hour to the next the weight changes by the later count minus the earlier, taken
/// modulo 65,536 as −32,768 to 32,767; every other hour becomes a gap. So the true weights come back, if the start is
/// true and no true step leaves that range.
///
/// Needs n counts, n flags and room for n hours. [Refusals](Refusal) 1, 3, 14, 15, 2: here 2 is an hour whose rebuilt
/// weight, or the start itself, is no reading.
///
/// ```
/// use sagivelume::{Refusal, GAP};
///
/// // The weight passes 65,535 grams, an hour is missing, and it falls below again.
/// let (counts, flags) = ([65_500, 40, 0, 65_530], [1, 1, 0, 1]);
/// let mut hours = [0; 4];
/// sagivelume::rebuild(4, &counts, &flags, 65_500, &mut hours)?;
/// assert_eq!(hours, [65_500, 65_576, GAP, 65_530]);
///
/// // A start below zero: -36 modulo 65,536 is 65,500. Exactly half a turn is down.
/// sagivelume::rebuild(2, &[65_500, 32_732], &[1, 1], -36, &mut hours)?;
/// assert_eq!(hours[..2], [-36, -32_804]);
///
/// let refused = sagivelume::rebuild(4, &counts, &[1, 1, 7, 1], 65_500, &mut hours);
/// assert_eq!(refused, Err(Refusal { number: Refusal::BAD_FLAG, place: 2 }));
/// let refused = sagivelume::rebuild(4, &counts, &flags, 65_501, &mut hours);
/// assert_eq!(refused, Err(Refusal { number: Refusal::BAD_START, place: 0 }));
/// let refused = sagivelume::rebuild(2, &[16_960, 16_961], &[1, 1], 1_000_000, &mut hours);
/// assert_eq!(refused, Err(Refusal { number: Refusal::BAD_READING, place: 1 }));
/// # Ok::<(), Refusal>(())
/// ```
pub fn rebuild(n: usize, counts: &[u16], flags: &[u8], start: i32, hours: &mut [i32]) -> Result<(), Refusal> {
    linked::rebuild(n, counts, flags, start, hours).taken()
}
