//! Writing and reading the house record in plain Rust.

use crate::head::{open, record_size, write_head, HEADER};
use crate::words::{Refusal, Table};

/// Writes the record of a table and gives the number of its bytes. Refusals in the order 1, 3, 4.
pub fn write_record(n: usize, coefficients: &[i32], codes: &[u8], bytes: &mut [u8]) -> Result<usize, Refusal> {
    let table = Table::lent(n, coefficients, codes)?;
    let p = table.coefficients.len();
    let size = record_size(p);
    let bytes = bytes.get_mut(..size).ok_or(Refusal::SHORT_BUFFER)?;
    table.examine()?;

    let (header, after) = bytes.split_at_mut(HEADER);
    write_head(n, p, header);
    let (packed, packed_codes) = after.split_at_mut(3 * p);
    for (three, coefficient) in packed.chunks_exact_mut(3).zip(table.coefficients) {
        three.copy_from_slice(&coefficient.to_be_bytes()[1..]);
    }
    packed_codes.copy_from_slice(table.codes);
    Ok(size)
}

/// A coefficient out of its three bytes: shifted down from the top, so that the sign comes with it.
fn coefficient_of(&[high, middle, low]: &[u8; 3]) -> i32 {
    i32::from_be_bytes([high, middle, low, 0]) >> 8
}

/// Reads a record into a table and gives n. Refusals in the order 8, 9, 1, 10, 8, 11, 3, 4.
///
/// A refused call writes nothing, so the coefficients are unpacked into a scratch vector, examined there and then
/// copied. To examine them straight from the bytes was measured too and took longer.
pub fn read_record(bytes: &[u8], coefficients: &mut [i32], codes: &mut [u8]) -> Result<usize, Refusal> {
    let (n, p) = open(bytes)?;
    if coefficients.len() < p || codes.len() < p / 2 {
        return Err(Refusal::SHORT_BUFFER);
    }
    let (packed, packed_codes) = bytes[HEADER..].split_at(3 * p);
    let (packed, _) = packed.as_chunks();
    let unpacked: Vec<i32> = packed.iter().map(coefficient_of).collect();
    Table { n, coefficients: &unpacked, codes: packed_codes }.examine()?;
    coefficients[..p].copy_from_slice(&unpacked);
    codes[..p / 2].copy_from_slice(packed_codes);
    Ok(n)
}
