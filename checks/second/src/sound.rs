//! Going down from a node to its halves, sound nodes, the order of examination, and turning a table back.

use crate::hours::{is_reading, LowHigh, Node, Shape, GAP};
use crate::refusal::{refuse_short, Refusal};
use crate::table::{NEITHER, ONLY_LEFT, ONLY_RIGHT};

/// Details run from minus this many grams to this many.
const GREATEST_DETAIL: i32 = 2_000_000;

/// A lent table: at least P coefficients and P/2 codes, of which nothing else is known.
#[derive(Clone, Copy, Debug)]
pub struct Table<'a> {
    /// The shape of the series that the table is said to have.
    pub shape: Shape,
    coefficients: &'a [i32],
    codes: &'a [u8],
}

impl<'a> Table<'a> {
    /// Takes a lent table, or gives refusal 3.
    pub fn lent(shape: Shape, coefficients: &'a [i32], codes: &'a [u8]) -> Result<Table<'a>, Refusal> {
        refuse_short(&[(coefficients.len(), shape.p), (codes.len(), shape.p / 2)])?;
        Ok(Table { shape, coefficients, codes })
    }

    /// The low detail and the high detail of a node that is not a pair.
    fn details(&self, node: Node) -> (i32, i32) {
        let place = 2 * node.number as usize;
        (self.coefficients[place], self.coefficients[place + 1])
    }

    /// The code of a pair.
    fn code(&self, pair: Node) -> u8 {
        self.codes[(pair.number - self.shape.p / 2) as usize]
    }

    /// Examines node 0 and gives the low and high of node 1, `None` if it is empty. The root values are sound if both
    /// hold the mark, or both are readings with low ≤ high.
    pub fn root(&self) -> Result<Option<LowHigh>, Refusal> {
        let (low, high) = (self.coefficients[0], self.coefficients[1]);
        if low == NEITHER && high == NEITHER {
            Ok(None)
        } else if is_reading(low) && is_reading(high) && low <= high {
            Ok(Some(LowHigh { low, high }))
        } else {
            Err(Refusal::unsound(0))
        }
    }

    /// Examines a node whose low and high were reached by going down.
    pub fn examine(&self, node: Node, value: Option<LowHigh>) -> Result<(), Refusal> {
        let sound = if self.shape.is_pair(node) { self.sound_pair(node, value) } else { self.sound(node, value) };
        if sound {
            Ok(())
        } else {
            Err(Refusal::unsound(node.number))
        }
    }

    /// If empty, both details are the mark of neither. Otherwise both are one of the other two marks, or both are in
    /// the range of details and each half has low ≤ high.
    fn sound(&self, node: Node, value: Option<LowHigh>) -> bool {
        let details = self.details(node);
        let Some(_) = value else {
            return details == (NEITHER, NEITHER);
        };
        let in_range = |detail: i32| (-GREATEST_DETAIL..=GREATEST_DETAIL).contains(&detail);
        let ordered = |half: Option<LowHigh>| half.is_some_and(|half| half.low <= half.high);
        if details == (ONLY_LEFT, ONLY_LEFT) || details == (ONLY_RIGHT, ONLY_RIGHT) {
            true
        } else if in_range(details.0) && in_range(details.1) {
            let (left, right) = self.go_down(node, value);
            ordered(left) && ordered(right)
        } else {
            false
        }
    }

    /// If empty, code 4; otherwise code 0, or 1 with low < high, or 2 or 3 with low = high; and hours from n on come
    /// out as gaps.
    fn sound_pair(&self, pair: Node, value: Option<LowHigh>) -> bool {
        let sound_code = match (value, self.code(pair)) {
            (None, code) => code == 4,
            (Some(_), 0) => true,
            (Some(LowHigh { low, high }), 1) => low < high,
            (Some(LowHigh { low, high }), 2 | 3) => low == high,
            (Some(_), _) => false,
        };
        if !sound_code {
            return false;
        }
        let (first, second) = self.shape.halves(pair);
        let (first_value, second_value) = self.go_down(pair, value);
        [(first, first_value), (second, second_value)]
            .iter()
            .all(|(half, value)| half.hours.first < self.shape.n || value.is_none())
    }

    /// Going down from a sound node: the low and high of its left and its right half, `None` where empty.
    pub fn go_down(&self, node: Node, value: Option<LowHigh>) -> (Option<LowHigh>, Option<LowHigh>) {
        let Some(LowHigh { low, high }) = value else {
            return (None, None);
        };
        if self.shape.is_pair(node) {
            let (low, high) = (LowHigh::of_one(low), LowHigh::of_one(high));
            return match self.code(node) {
                0 => (Some(high), Some(low)),
                1 => (Some(low), Some(high)),
                2 => (Some(low), None),
                3 => (None, Some(low)),
                _ => (None, None),
            };
        }
        match self.details(node) {
            (ONLY_LEFT, ONLY_LEFT) => (value, None),
            (ONLY_RIGHT, ONLY_RIGHT) => (None, value),
            (low_detail, high_detail) => {
                let (left_low, right_low) = lows_below(low, low_detail);
                let (left_high, right_high) = highs_below(high, high_detail);
                (Some(LowHigh { low: left_low, high: left_high }), Some(LowHigh { low: right_low, high: right_high }))
            }
        }
    }

    /// All P hours of a sound table, or refusal 4 at its first unsound node.
    pub fn hours(&self) -> Result<Vec<i32>, Refusal> {
        let mut hours = Vec::with_capacity(self.shape.p as usize);
        self.hours_below(self.shape.node(1), self.root()?, &mut hours)?;
        Ok(hours)
    }

    /// Examines each node before its halves, left before right, with all below the left half before the right half.
    fn hours_below(&self, node: Node, value: Option<LowHigh>, hours: &mut Vec<i32>) -> Result<(), Refusal> {
        if node.level == self.shape.l {
            hours.push(value.map_or(GAP, |reading| reading.low));
            return Ok(());
        }
        self.examine(node, value)?;
        let (left, right) = self.shape.halves(node);
        let (left_value, right_value) = self.go_down(node, value);
        self.hours_below(left, left_value, hours)?;
        self.hours_below(right, right_value, hours)
    }
}

/// The lows of both halves of a node with low A and low detail D.
fn lows_below(a: i32, d: i32) -> (i32, i32) {
    if d <= 0 {
        (a, a - d)
    } else {
        (a + d, a)
    }
}

/// The highs of both halves of a node with high A and high detail D.
fn highs_below(a: i32, d: i32) -> (i32, i32) {
    if d >= 0 {
        (a, a - d)
    } else {
        (a + d, a)
    }
}

/// Turns a table back into its n hours. Refusals in the order 1, 3, 4.
pub fn turn_back(n: u64, coefficients: &[i32], codes: &[u8], hours: &mut [i32]) -> Result<(), Refusal> {
    let shape = Shape::of(n)?;
    let table = Table::lent(shape, coefficients, codes)?;
    refuse_short(&[(hours.len(), n)])?;
    let turned_back = table.hours()?;
    hours[..n as usize].copy_from_slice(&turned_back[..n as usize]);
    Ok(())
}
