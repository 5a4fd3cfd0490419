//! The house record: writing it, reading it, and single coefficients out of it.
//!
//! Big-endian. Four bytes: length of what follows, 3 + 3P + P/2. One byte: version 1. Two bytes: n. Then P
//! coefficients of three bytes each in two's complement, and P/2 codes of one byte each.

use crate::hours::Shape;
use crate::refusal::{refuse_short, Refusal};
use crate::sound::Table;

/// Bytes before the first coefficient.
const BEFORE_COEFFICIENTS: usize = 7;
/// Bytes that the length field does not count: its own four.
const LENGTH_FIELD: u64 = 4;
const VERSION: u8 = 1;

/// What the length field holds.
fn length_field(shape: Shape) -> u64 {
    3 + 3 * shape.p + shape.p / 2
}

/// How many bytes the record of n hours has; 0 if no series has n hours.
pub fn record_bytes(n: u64) -> u64 {
    Shape::of(n).map_or(0, |shape| LENGTH_FIELD + length_field(shape))
}

/// The whole record of a table that holds exactly P coefficients and P/2 codes.
fn record_of(shape: Shape, coefficients: &[i32], codes: &[u8]) -> Vec<u8> {
    let mut record = Vec::new();
    record.extend((length_field(shape) as u32).to_be_bytes());
    record.push(VERSION);
    record.extend((shape.n as u16).to_be_bytes());
    for coefficient in coefficients {
        record.extend(&coefficient.to_be_bytes()[1..]);
    }
    record.extend(codes);
    record
}

/// Writes the record of a table and gives the number of its bytes. Refusals in the order 1, 3, 4.
pub fn write_record(n: u64, coefficients: &[i32], codes: &[u8], record: &mut [u8]) -> Result<u64, Refusal> {
    let shape = Shape::of(n)?;
    let table = Table::lent(shape, coefficients, codes)?;
    let bytes = LENGTH_FIELD + length_field(shape);
    refuse_short(&[(record.len(), bytes)])?;
    table.hours()?;
    let written = record_of(shape, &coefficients[..shape.p as usize], &codes[..shape.p as usize / 2]);
    record[..written.len()].copy_from_slice(&written);
    Ok(bytes)
}

/// The reading checks except 3 and 4: under 7 bytes 8; then 9, 1, 10; fewer bytes than stated 8; more 11.
fn checked(bytes: &[u8]) -> Result<Shape, Refusal> {
    let &[l0, l1, l2, l3, version, n0, n1, ..] = bytes else {
        return Err(Refusal::CUT_SHORT);
    };
    if version != VERSION {
        return Err(Refusal::VERSION);
    }
    let shape = Shape::of(u64::from(u16::from_be_bytes([n0, n1])))?;
    let stated = u64::from(u32::from_be_bytes([l0, l1, l2, l3]));
    if stated != length_field(shape) {
        return Err(Refusal::LENGTH_FIELD);
    }
    let whole = LENGTH_FIELD + stated;
    if (bytes.len() as u64) < whole {
        return Err(Refusal::CUT_SHORT);
    }
    if (bytes.len() as u64) > whole {
        return Err(Refusal::BYTES_AFTER);
    }
    Ok(shape)
}

/// A coefficient out of its three bytes.
fn coefficient_of(three: &[u8]) -> i32 {
    let sign = if three[0] >= 0x80 { 0xff } else { 0 };
    i32::from_be_bytes([sign, three[0], three[1], three[2]])
}

/// Reads a record into a table and gives n. Refusals: those of opening, then 3, then 4.
pub fn read_record(bytes: &[u8], coefficients: &mut [i32], codes: &mut [u8]) -> Result<u64, Refusal> {
    let shape = checked(bytes)?;
    refuse_short(&[(coefficients.len(), shape.p), (codes.len(), shape.p / 2)])?;
    let (p, half) = (shape.p as usize, shape.p as usize / 2);
    let (read, read_codes) = bytes[BEFORE_COEFFICIENTS..].split_at(3 * p);
    let read: Vec<i32> = read.chunks_exact(3).map(coefficient_of).collect();
    Table::lent(shape, &read, read_codes)?.hours()?;
    coefficients[..p].copy_from_slice(&read);
    codes[..half].copy_from_slice(read_codes);
    Ok(shape.n)
}

/// What opening a record answers.
#[derive(Clone, Copy, Debug, PartialEq, Eq)]
pub struct Opened {
    /// The hours of the series.
    pub n: u64,
    /// The number of coefficients.
    pub p: u64,
}

/// Opens a record without unpacking it: the reading checks except 3 and 4.
pub fn open(bytes: &[u8]) -> Result<Opened, Refusal> {
    let shape = checked(bytes)?;
    Ok(Opened { n: shape.n, p: shape.p })
}

/// Opens a record and asks it for the coefficient of one place; a place from P on gets 13.
pub fn ask(bytes: &[u8], place: u64) -> Result<i32, Refusal> {
    ask_view(bytes, open(bytes)?.p, place)
}

/// Asks a view, which holds a record's bytes and P. A place from P on gets 13, tested first; a view whose bytes do not
/// reach the place, which nobody gets from opening, gets 8.
pub fn ask_view(bytes: &[u8], p: u64, place: u64) -> Result<i32, Refusal> {
    if place >= p {
        return Err(Refusal::PLACE);
    }
    let coefficients = bytes.get(BEFORE_COEFFICIENTS..).unwrap_or_default();
    let three = usize::try_from(place).ok().and_then(|place| coefficients.chunks_exact(3).nth(place));
    three.map(coefficient_of).ok_or(Refusal::CUT_SHORT)
}
