//! The head of a house record, which is not what is measured: every side writes it and reads it in this way.
//!
//! Big-endian. Four bytes: length of what follows, 3 + 3P + P/2. One byte: version 1. Two bytes: n. Then P coefficients
//! of three bytes each in two's complement, and P/2 codes of one byte each.

use crate::words::{needed_coefficients, Refusal};

/// Bytes before the first coefficient.
pub(crate) const HEADER: usize = 7;
/// Bytes that the length field does not count: its own four.
const UNCOUNTED: usize = 4;
const VERSION: u8 = 1;

/// Bytes of the whole record.
pub(crate) const fn record_size(p: usize) -> usize {
    HEADER + 3 * p + p / 2
}

/// Writes the head of a record of n hours and P coefficients into its first bytes.
pub(crate) fn write_head(n: usize, p: usize, header: &mut [u8]) {
    header[..4].copy_from_slice(&((record_size(p) - UNCOUNTED) as u32).to_be_bytes());
    header[4] = VERSION;
    header[5..].copy_from_slice(&(n as u16).to_be_bytes());
}

/// n and P, after the reading checks except 3 and 4.
pub(crate) fn open(bytes: &[u8]) -> Result<(usize, usize), Refusal> {
    let &[l0, l1, l2, l3, version, n0, n1, ..] = bytes else {
        return Err(Refusal::CUT_SHORT);
    };
    if version != VERSION {
        return Err(Refusal::VERSION);
    }
    let n = usize::from(u16::from_be_bytes([n0, n1]));
    let p = needed_coefficients(n)?;
    let size = record_size(p);
    if u32::from_be_bytes([l0, l1, l2, l3]) as usize != size - UNCOUNTED {
        return Err(Refusal::LENGTH_FIELD);
    }
    if bytes.len() < size {
        return Err(Refusal::CUT_SHORT);
    }
    if bytes.len() > size {
        return Err(Refusal::BYTES_AFTER);
    }
    Ok((n, p))
}
