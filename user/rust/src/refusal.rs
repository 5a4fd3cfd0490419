//! Refusals.

use core::error::Error;
use core::fmt;

/// A refusal: its number and its place. Where a call has several causes, the first in the order given with it is told.
/// The numbers are the constants below, each with its cause.
///
/// ```
/// use sagivelume::Refusal;
///
/// let (mut coefficients, mut codes) = ([0; 2], [0; 1]);
/// let refused = sagivelume::make(2, &[0, 1_000_001], &mut coefficients, &mut codes).expect_err("no reading");
/// assert_eq!(refused, Refusal { number: Refusal::BAD_READING, place: 1 });
/// assert_eq!(refused.to_string(), "refused 2 at 1");
/// assert_eq!(format!("{refused:#}"), "refused 2 at 1: an hour holds neither a reading nor a gap");
/// ```
#[derive(Clone, Copy, Debug, PartialEq, Eq)]
pub struct Refusal {
    /// The number.
    pub number: u8,
    /// The first such hour for 2 and 14, the number of the first such node for 4, 0 for the root values, and 0 for all
    /// others.
    pub place: usize,
}

/// The constants of the refusals, each with its number and its cause.
macro_rules! refusals {
    ($($word:ident $number:literal $cause:literal)*) => {
        impl Refusal {
            $(
                #[doc = concat!($cause, ".")]
                pub const $word: u8 = $number;
            )*

            /// Its cause in words; nothing for a number that no refusal has.
            ///
            /// ```
            /// let refused = sagivelume::open_record(&[]).expect_err("no record");
            /// assert_eq!(refused.cause(), "the bytes end before the record, or the coefficient, does");
            /// ```
            pub fn cause(&self) -> &'static str {
                match self.number {
                    $($number => $cause,)*
                    _ => "",
                }
            }
        }
    };
}

refusals! {
    BAD_HOURS 1 "n is 0 or over 16,384"
    BAD_READING 2 "an hour holds neither a reading nor a gap"
    SHORT_BUFFER 3 "a buffer is shorter than needed"
    UNSOUND 4 "a node that is examined fits no series of n hours"
    BAD_WINDOW 5 "not a < b <= n, or the day begins at hour n or later"
    BAD_COLUMN 6 "w is 0 or over 4,096, or the column is not below w"
    TOO_DEEP 7 "the depth is over l, where P is 2 to the power l"
    CUT_SHORT 8 "the bytes end before the record, or the coefficient, does"
    BAD_VERSION 9 "the record's version is not 1"
    BAD_LENGTH 10 "the record's length field is not that of its n"
    BYTES_AFTER 11 "bytes follow the record"
    BAD_LINE 12 "a line of the text is bad"
    BAD_PLACE 13 "the place asked for is not below the number of places"
    BAD_FLAG 14 "a flag is neither 0 nor 1"
    BAD_START 15 "the start differs from the first recorded count modulo 65,536"
}

/// The line that document 01 has for a refusal; with `{:#}` the cause follows.
impl fmt::Display for Refusal {
    fn fmt(&self, f: &mut fmt::Formatter<'_>) -> fmt::Result {
        write!(f, "refused {} at {}", self.number, self.place)?;
        if f.alternate() {
            write!(f, ": {}", self.cause())?;
        }
        Ok(())
    }
}

impl Error for Refusal {}

/// How a call ended: number 0 if it was taken, else the number of the refusal, with its place.
#[repr(C)]
pub(crate) struct Told {
    pub(crate) number: usize,
    pub(crate) place: usize,
}

impl Told {
    /// Taken, or the refusal.
    pub(crate) fn taken(self) -> Result<(), Refusal> {
        match self.number {
            0 => Ok(()),
            number => {
                Err(Refusal { number: u8::try_from(number).expect("refusals are numbered 1 to 15"), place: self.place })
            }
        }
    }
}
