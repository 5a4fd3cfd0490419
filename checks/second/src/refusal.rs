//! The refusals: those of document 01's list, and 14 and 15 of document 02.

use std::fmt;

/// A refusal: its number in the list and its place.
#[derive(Clone, Copy, Debug, PartialEq, Eq)]
pub struct Refusal {
    /// The number, 1 to 15.
    pub number: u8,
    /// The hour of 2 and of 14, the node number of 4, the line of 12, and 0 for all others.
    pub place: u64,
}

impl Refusal {
    /// 1: n is 0 or over 16,384.
    pub const SERIES: Refusal = Refusal::without_place(1);
    /// 3: a lent buffer is shorter than needed.
    pub const SHORT_BUFFER: Refusal = Refusal::without_place(3);
    /// 5: the window is not a < b ≤ n, or the day begins at n or later.
    pub const WINDOW: Refusal = Refusal::without_place(5);
    /// 6: w is 0 or over 4,096, or the column number is not below w.
    pub const COLUMN: Refusal = Refusal::without_place(6);
    /// 7: the depth is over l.
    pub const DEPTH: Refusal = Refusal::without_place(7);
    /// 8: the record is cut short.
    pub const CUT_SHORT: Refusal = Refusal::without_place(8);
    /// 9: the version is not 1.
    pub const VERSION: Refusal = Refusal::without_place(9);
    /// 10: the length field is not that of n.
    pub const LENGTH_FIELD: Refusal = Refusal::without_place(10);
    /// 11: there are bytes after the record.
    pub const BYTES_AFTER: Refusal = Refusal::without_place(11);
    /// 13: the coefficient place is P or more.
    pub const PLACE: Refusal = Refusal::without_place(13);
    /// 15: the start differs from the first recorded count modulo 65,536.
    pub const START: Refusal = Refusal::without_place(15);

    const fn without_place(number: u8) -> Refusal {
        Refusal { number, place: 0 }
    }

    /// 2: this hour holds neither a reading nor the gap mark, or would, if it were rebuilt.
    pub const fn hour(hour: u64) -> Refusal {
        Refusal { number: 2, place: hour }
    }

    /// 4: the node of this number is unsound; 0 stands for the root values.
    pub const fn unsound(node_number: u64) -> Refusal {
        Refusal { number: 4, place: node_number }
    }

    /// 12: this line, counted from 1, is bad.
    pub const fn line(line: u64) -> Refusal {
        Refusal { number: 12, place: line }
    }

    /// 14: the flag of this hour is neither 0 nor 1.
    pub const fn flag(hour: u64) -> Refusal {
        Refusal { number: 14, place: hour }
    }
}

impl fmt::Display for Refusal {
    fn fmt(&self, f: &mut fmt::Formatter<'_>) -> fmt::Result {
        write!(f, "refused {} at {}", self.number, self.place)
    }
}

/// Refusal 3 if one of the lent buffers, each given as its length and the length needed, is too short.
pub fn refuse_short(lent_and_needed: &[(usize, u64)]) -> Result<(), Refusal> {
    if lent_and_needed.iter().any(|&(lent, needed)| (lent as u64) < needed) {
        return Err(Refusal::SHORT_BUFFER);
    }
    Ok(())
}
