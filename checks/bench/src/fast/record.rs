//! Writing and reading the house record.

use super::examine::examine;
use super::scratch::{with_scratch, Scratch};
use crate::head::{open, record_size, write_head, HEADER};
use crate::words::{Refusal, Table};

/// Writes the record of a table and gives the number of its bytes. Refusals in the order 1, 3, 4.
pub fn write_record(n: usize, coefficients: &[i32], codes: &[u8], bytes: &mut [u8]) -> Result<usize, Refusal> {
    let table = Table::lent(n, coefficients, codes)?;
    let p = table.coefficients.len();
    let size = record_size(p);
    let bytes = bytes.get_mut(..size).ok_or(Refusal::SHORT_BUFFER)?;
    with_scratch(|Scratch { lows, highs, .. }| examine(table, lows, highs).map(|_| ()))?;

    let (header, after) = bytes.split_at_mut(HEADER);
    write_head(n, p, header);
    let (packed, packed_codes) = after.split_at_mut(3 * p);
    let (packed, _) = packed.as_chunks_mut();
    for (three, &coefficient) in packed.iter_mut().zip(table.coefficients) {
        *three = [(coefficient >> 16) as u8, (coefficient >> 8) as u8, coefficient as u8];
    }
    packed_codes.copy_from_slice(table.codes);
    Ok(size)
}

/// Reads a record into a table and gives n. Refusals in the order 8, 9, 1, 10, 8, 11, 3, 4.
///
/// A refused call writes nothing, so the coefficients are unpacked into scratch memory, examined there and then copied.
pub fn read_record(bytes: &[u8], coefficients: &mut [i32], codes: &mut [u8]) -> Result<usize, Refusal> {
    let (n, p) = open(bytes)?;
    if coefficients.len() < p || codes.len() < p / 2 {
        return Err(Refusal::SHORT_BUFFER);
    }
    let (packed, packed_codes) = bytes[HEADER..].split_at(3 * p);
    let (packed, _) = packed.as_chunks();
    with_scratch(|Scratch { lows, highs, coefficients: unpacked, .. }| {
        let unpacked = &mut unpacked[..p];
        for (coefficient, &[high, middle, low]) in unpacked.iter_mut().zip(packed) {
            *coefficient = i32::from(high as i8) << 16 | i32::from(middle) << 8 | i32::from(low);
        }
        examine(Table { n, coefficients: unpacked, codes: packed_codes }, lows, highs)?;
        coefficients[..p].copy_from_slice(unpacked);
        codes[..p / 2].copy_from_slice(packed_codes);
        Ok(n)
    })
}
