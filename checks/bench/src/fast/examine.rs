//! Examining a table level by level, from the root down, and turning it back.

use super::scratch::{with_scratch, Scratch};
use crate::words::{Refusal, Table, GAP, GREATEST_DETAIL, GREATEST_READING, NEITHER, ONLY_LEFT};

/// Turns a table back into its n hours. Refusals in the order 1, 3, 4.
pub fn turn_back(n: usize, coefficients: &[i32], codes: &[u8], hours: &mut [i32]) -> Result<(), Refusal> {
    let table = Table::lent(n, coefficients, codes)?;
    let hours = hours.get_mut(..n).ok_or(Refusal::SHORT_BUFFER)?;
    with_scratch(|Scratch { lows, highs, .. }| {
        let (lows, highs) = examine(table, lows, highs)?;
        write_hours(table.codes, lows, highs, hours);
        Ok(())
    })
}

/// The low of an empty node while a table is examined: less than every reading, so that it is in order with any high.
/// What the high of an empty node is does not matter.
const EMPTY: i32 = -GAP;

/// Examines a whole table and gives the lows and the highs of its pairs.
pub fn examine<'a>(table: Table, lows: &'a mut [i32], highs: &'a mut [i32]) -> Result<(&'a [i32], &'a [i32]), Refusal> {
    let Table { n, coefficients, codes } = table;
    let (low, high) = (coefficients[0], coefficients[1]);
    let mut unsound = is_unsound_root(low, high);
    (lows[1], highs[1]) = (if low == NEITHER { EMPTY } else { low }, high);
    let mut nodes = 1;
    while nodes < codes.len() {
        let (above, below) = lows.split_at_mut(2 * nodes);
        let (highs_above, highs_below) = highs.split_at_mut(2 * nodes);
        unsound |= open_level(
            coefficients[2 * nodes..][..2 * nodes].as_chunks().0,
            &above[nodes..],
            &highs_above[nodes..],
            below[..2 * nodes].as_chunks_mut().0,
            highs_below[..2 * nodes].as_chunks_mut().0,
        );
        nodes *= 2;
    }
    let (lows, highs) = (&lows[nodes..][..nodes], &highs[nodes..][..nodes]);
    unsound |= has_unsound_pair(codes, lows, highs) | has_hour_from(n, codes);
    if unsound {
        return Err(table.examine().expect_err("a node is unsound"));
    }
    Ok((lows, highs))
}

/// Whether the root values are neither two readings in order nor the mark twice.
fn is_unsound_root(low: i32, high: i32) -> bool {
    let readings = -GREATEST_READING <= low && low <= high && high <= GREATEST_READING;
    !readings && (low, high) != (NEITHER, NEITHER)
}

/// Writes the lows and highs of the halves of one level's nodes. Tells whether a node is unsound; what is written then
/// means nothing.
fn open_level(
    details: &[[i32; 2]],
    lows: &[i32],
    highs: &[i32],
    lows_below: &mut [[i32; 2]],
    highs_below: &mut [[i32; 2]],
) -> bool {
    let mut unsound = 0;
    let nodes = details.iter().zip(lows).zip(highs).zip(lows_below).zip(highs_below);
    for ((((&[d, e], &low), &high), lows_below), highs_below) in nodes {
        let marked = mask(d > GREATEST_DETAIL);
        let left_empty = mask(d > ONLY_LEFT);
        let right_empty = mask((d == ONLY_LEFT) | (d == NEITHER));
        let (low_step, high_step) = (d & !marked, e & !marked);
        let left_low = choose(left_empty, EMPTY, low.wrapping_add(low_step.max(0)));
        let left_high = high.wrapping_add(high_step.min(0));
        let right_low = choose(right_empty, EMPTY, low.wrapping_sub(low_step.min(0)));
        let right_high = high.wrapping_sub(high_step.max(0));
        // A detail that is too great leaves a half out of order. These numbers are small enough to show it.
        let wild = (d.min(e) < -GREATEST_DETAIL) | (d.max(e) > NEITHER);
        let disordered = (left_low > left_high) | (right_low > right_high);
        let mismarked = ((d > GREATEST_DETAIL) & (d != e)) | ((d == NEITHER) != (low == EMPTY));
        unsound += i32::from(wild | disordered | mismarked);
        (*lows_below, *highs_below) = ([left_low, right_low], [left_high, right_high]);
    }
    unsound > 0
}

/// All bits set, or none: what a vector's comparison gives.
#[inline]
fn mask(holds: bool) -> i32 {
    -i32::from(holds)
}

/// One number where the mask is set, the other where it is not.
#[inline]
fn choose(mask: i32, one: i32, other: i32) -> i32 {
    one & mask | other & !mask
}

/// Whether the code of a pair is not one of its low and high.
fn has_unsound_pair(codes: &[u8], lows: &[i32], highs: &[i32]) -> bool {
    codes.iter().zip(lows).zip(highs).fold(false, |unsound, ((&code, &low), &high)| {
        let code = i32::from(code);
        let equal = low == high;
        unsound
            | (code > 4)
            | ((code == 4) != (low == EMPTY))
            | ((code == 1) & equal)
            | ((code == 2) & !equal)
            | ((code == 3) & !equal)
    })
}

/// Whether an hour from n on has a reading, by the codes.
fn has_hour_from(n: usize, codes: &[u8]) -> bool {
    let ends_in_a_pair = n % 2 == 1 && !matches!(codes[n / 2], 2 | 4);
    ends_in_a_pair || codes[n.div_ceil(2)..].iter().any(|&code| code != 4)
}

/// Writes the hours of a sound table from its codes and from the lows and highs of its pairs.
fn write_hours(codes: &[u8], lows: &[i32], highs: &[i32], hours: &mut [i32]) {
    let (pairs, last) = hours.as_chunks_mut();
    let whole = pairs.len();
    for (((pair, &code), &low), &high) in pairs.iter_mut().zip(codes).zip(lows).zip(highs) {
        *pair = hours_of_pair(code, low, high);
    }
    if let [hour] = last {
        [*hour, _] = hours_of_pair(codes[whole], lows[whole], highs[whole]);
    }
}

/// What the two hours of a sound pair hold.
#[inline]
fn hours_of_pair(code: u8, low: i32, high: i32) -> [i32; 2] {
    let first = if code < 3 { low } else { GAP };
    let second = if (code == 0) | (code == 3) { low } else { GAP };
    [if code == 0 { high } else { first }, if code == 1 { high } else { second }]
}
