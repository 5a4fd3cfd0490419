//! One level of details.

use crate::hours::Shape;

/// A stretch of the lent coefficients. One of length 0 has start 0.
#[derive(Clone, Copy, Debug, Default, PartialEq, Eq)]
pub struct Stretch {
    /// The first place.
    pub start: u64,
    /// The number of places.
    pub length: u64,
}

impl Stretch {
    /// The stretch of the table itself.
    pub fn of(self, coefficients: &[i32]) -> &[i32] {
        &coefficients[self.start as usize..][..self.length as usize]
    }
}

/// The details of level j: places 2·2^j to 4·2^j − 1, for j up to l − 2. Any other level, and the causes of 1 and 3,
/// give a stretch of length 0; this call alone has no refusal.
pub fn level(n: u64, j: u64, coefficients: &[i32]) -> Stretch {
    match Shape::of(n) {
        Ok(Shape { p, l, .. }) if coefficients.len() as u64 >= p && l >= 2 && j <= l - 2 => {
            Stretch { start: 2 << j, length: 2 << j }
        }
        _ => Stretch::default(),
    }
}
