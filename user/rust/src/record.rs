//! Writing a house record, reading it, and single coefficients out of it.
//!
//! Big-endian. Four bytes: length of what follows, 3 + 3P + P/2. One byte: version 1. Two bytes: n. Then P coefficients
//! of three bytes each in two's complement, and P/2 codes of one byte each.

use crate::linked;
use crate::refusal::{Refusal, Told};

/// Writes the record of a table and gives the number of its bytes, 7 + 3P + P/2.
///
/// Needs P coefficients, P/2 codes and room for the record's bytes. [Refusals](Refusal) 1, 3, 4.
///
/// ```
/// use sagivelume::Refusal;
///
/// let mut record = [77; 15];
/// assert_eq!(sagivelume::write_record(2, &[-1, 500], &[0], &mut record)?, 14);
/// assert_eq!(record, [0, 0, 0, 10, 1, 0, 2, 255, 255, 255, 0, 1, 244, 0, 77]);
///
/// let refused = sagivelume::write_record(2, &[5, 5], &[1], &mut record);
/// assert_eq!(refused, Err(Refusal { number: Refusal::UNSOUND, place: 1 }));
/// # Ok::<(), Refusal>(())
/// ```
pub fn write_record(n: usize, coefficients: &[i32], codes: &[u8], bytes: &mut [u8]) -> Result<usize, Refusal> {
    linked::write_record(n, coefficients, codes, bytes).taken()
}

/// Reads a record into a table, P coefficients and P/2 codes, and gives n. The bytes are the record itself, so that
/// none may follow it.
///
/// Needs room for P coefficients and P/2 codes. [Refusals](Refusal) 8, 9, 1, 10, 8, 11, 3, 4: the first 8 is that of
/// fewer than 7 bytes, the other that of fewer than the length field states.
///
/// ```
/// use sagivelume::Refusal;
///
/// let record = [0, 0, 0, 10, 1, 0, 2, 255, 255, 255, 0, 1, 244, 0];
/// let (mut coefficients, mut codes) = ([0; 2], [77; 1]);
/// assert_eq!(sagivelume::read_record(&record, &mut coefficients, &mut codes)?, 2);
/// assert_eq!((coefficients, codes), ([-1, 500], [0]));
///
/// let cut_short = sagivelume::read_record(&record[..13], &mut coefficients, &mut codes);
/// assert_eq!(cut_short, Err(Refusal { number: Refusal::CUT_SHORT, place: 0 }));
/// # Ok::<(), Refusal>(())
/// ```
pub fn read_record(bytes: &[u8], coefficients: &mut [i32], codes: &mut [u8]) -> Result<usize, Refusal> {
    linked::read_record(bytes, coefficients, codes).taken()
}

/// Opens a record, to ask it for single coefficients without unpacking it. Whether its table is sound is not examined.
///
/// [Refusals](Refusal) 8, 9, 1, 10, 8, 11, as those of reading.
///
/// ```
/// use sagivelume::Refusal;
///
/// let record = sagivelume::open_record(&[0, 0, 0, 10, 1, 0, 1, 0, 0, 5, 255, 255, 254, 9])?;
/// assert_eq!((record.hours(), record.places()), (1, 2));
/// assert_eq!(record.coefficient(1), Ok(-2));
///
/// let refused = sagivelume::open_record(&[0, 0, 0, 11, 1, 0, 1]);
/// assert_eq!(refused, Err(Refusal { number: Refusal::BAD_LENGTH, place: 0 }));
/// # Ok::<(), Refusal>(())
/// ```
pub fn open_record(bytes: &[u8]) -> Result<Record<'_>, Refusal> {
    let (hours, places) = linked::open_record(bytes).taken()?;
    Ok(Record { bytes, hours, places })
}

/// An opened record: a view of its bytes.
///
/// ```
/// let bytes = [0, 0, 0, 10, 1, 0, 2, 255, 255, 255, 0, 1, 244, 0];
/// let record = sagivelume::open_record(&bytes)?;
/// let coefficients: Vec<i32> = (0..record.places()).map(|place| record.coefficient(place)).collect::<Result<_, _>>()?;
/// assert_eq!(coefficients, [-1, 500]);
/// # Ok::<(), sagivelume::Refusal>(())
/// ```
#[derive(Clone, Copy, Debug, PartialEq, Eq)]
pub struct Record<'a> {
    bytes: &'a [u8],
    hours: usize,
    places: usize,
}

impl Record<'_> {
    /// The hours of its series, n.
    ///
    /// ```
    /// let record = sagivelume::open_record(&[0, 0, 0, 10, 1, 0, 2, 255, 255, 255, 0, 1, 244, 0])?;
    /// assert_eq!(record.hours(), 2);
    /// # Ok::<(), sagivelume::Refusal>(())
    /// ```
    pub fn hours(&self) -> usize {
        self.hours
    }

    /// The places of its coefficients, P.
    ///
    /// ```
    /// let record = sagivelume::open_record(&[0, 0, 0, 10, 1, 0, 1, 0, 0, 5, 0, 0, 5, 2])?;
    /// assert_eq!((record.hours(), record.places()), (1, 2));
    /// # Ok::<(), sagivelume::Refusal>(())
    /// ```
    pub fn places(&self) -> usize {
        self.places
    }

    /// The coefficient of a place. Refusal 13 for a place from P on, and no other.
    ///
    /// ```
    /// use sagivelume::Refusal;
    ///
    /// let record = sagivelume::open_record(&[0, 0, 0, 10, 1, 0, 2, 255, 255, 255, 0, 1, 244, 0])?;
    /// assert_eq!(record.coefficient(0), Ok(-1));
    /// assert_eq!(record.coefficient(2), Err(Refusal { number: Refusal::BAD_PLACE, place: 0 }));
    /// # Ok::<(), Refusal>(())
    /// ```
    pub fn coefficient(&self, place: usize) -> Result<i32, Refusal> {
        ask(self.bytes, self.places, place)
    }
}

/// The coefficient at a place of a record's bytes. `places` is trusted: it is to be P as opening answered it for these
/// bytes, and neither it nor the record is checked again. With another number no byte beyond the lent ones is read, but
/// what is answered is not the record's. A [`Record`] has its places from opening.
///
/// [Refusals](Refusal) 13, 8.
///
/// ```
/// use sagivelume::Refusal;
///
/// let bytes = [0, 0, 0, 0, 0, 0, 0, 255, 255, 249, 0, 0, 7];
/// assert_eq!(sagivelume::ask(&bytes, 2, 0), Ok(-7));
/// assert_eq!(sagivelume::ask(&bytes, 2, 1), Ok(7));
/// assert_eq!(sagivelume::ask(&bytes[..12], 2, 1), Err(Refusal { number: Refusal::CUT_SHORT, place: 0 }));
/// assert_eq!(sagivelume::ask(&bytes, 1, 1), Err(Refusal { number: Refusal::BAD_PLACE, place: 0 }));
/// ```
pub fn ask(bytes: &[u8], places: usize, place: usize) -> Result<i32, Refusal> {
    linked::ask(bytes, places, place).taken()
}

/// How writing a record ended, with the number of its bytes.
#[repr(C)]
pub(crate) struct ToldBytes {
    number: usize,
    place: usize,
    bytes: usize,
}

impl ToldBytes {
    /// The number of bytes, or the refusal.
    pub(crate) fn taken(self) -> Result<usize, Refusal> {
        let ToldBytes { number, place, bytes } = self;
        Told { number, place }.taken().map(|()| bytes)
    }
}

/// How reading a record ended, with the hours of its series.
#[repr(C)]
pub(crate) struct ToldHours {
    number: usize,
    place: usize,
    hours: usize,
}

impl ToldHours {
    /// The hours, or the refusal.
    pub(crate) fn taken(self) -> Result<usize, Refusal> {
        let ToldHours { number, place, hours } = self;
        Told { number, place }.taken().map(|()| hours)
    }
}

/// How opening a record ended, with the hours of its series and the places of its coefficients.
#[repr(C)]
pub(crate) struct ToldRecord {
    number: usize,
    place: usize,
    hours: usize,
    places: usize,
}

impl ToldRecord {
    /// Hours and places, or the refusal.
    pub(crate) fn taken(self) -> Result<(usize, usize), Refusal> {
        let ToldRecord { number, place, hours, places } = self;
        Told { number, place }.taken().map(|()| (hours, places))
    }
}

/// How asking for a coefficient ended, with the coefficient.
#[repr(C)]
pub(crate) struct ToldCoefficient {
    number: usize,
    place: usize,
    coefficient: i32,
}

impl ToldCoefficient {
    /// The coefficient, or the refusal.
    pub(crate) fn taken(self) -> Result<i32, Refusal> {
        let ToldCoefficient { number, place, coefficient } = self;
        Told { number, place }.taken().map(|()| coefficient)
    }
}
