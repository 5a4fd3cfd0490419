//! Lent buffers, each a part of a larger one with guards on both sides.

use std::cmp::Ordering;
use std::fmt::Display;

/// Guards on each side of a lent buffer. An odd number, so that no buffer begins where memory is best aligned.
const GUARDS: usize = 61;

/// What buffers hold: numbers or bytes.
pub trait Held: Copy + Eq + Display {
    /// A guard, which no table, series or record is likely to hold.
    fn guard(place: usize) -> Self;
}

impl Held for i32 {
    fn guard(place: usize) -> i32 {
        0x5a5a_0000 + (place % 0x1000) as i32
    }
}

impl Held for u16 {
    fn guard(place: usize) -> u16 {
        0x5a00 + (place % 0x100) as u16
    }
}

impl Held for u8 {
    fn guard(place: usize) -> u8 {
        0xa0 + (place % 64) as u8
    }
}

/// A buffer lent to one call of the proved store.
pub struct Lent<'a, T> {
    /// What the buffer is called.
    pub name: &'static str,
    before: &'a [T],
    needed: Option<usize>,
    whole: Vec<T>,
}

impl<'a, T: Held> Lent<'a, T> {
    /// A buffer that holds this before the call, and how much of it the call needs, if that can be said.
    pub fn holding(name: &'static str, before: &'a [T], needed: Option<usize>) -> Lent<'a, T> {
        let mut whole: Vec<T> = (0..2 * GUARDS + before.len()).map(T::guard).collect();
        whole[GUARDS..][..before.len()].copy_from_slice(before);
        Lent { name, before, needed, whole }
    }

    /// The lent part, to be read.
    pub fn part(&self) -> &[T] {
        &self.whole[GUARDS..][..self.before.len()]
    }

    /// The lent part, to be written.
    pub fn part_mut(&mut self) -> &mut [T] {
        &mut self.whole[GUARDS..][..self.before.len()]
    }

    /// Whether the lent part is shorter than needed, just as long, or longer.
    pub fn length(&self) -> Option<Ordering> {
        self.needed.map(|needed| self.before.len().cmp(&needed))
    }

    /// Whether the lent part holds what it held before.
    pub fn unchanged(&self) -> bool {
        self.part() == self.before
    }

    /// Whether the guards on both sides hold what they held before.
    pub fn guards_stand(&self) -> bool {
        let after = GUARDS + self.before.len();
        (0..GUARDS).chain(after..after + GUARDS).all(|place| self.whole[place] == T::guard(place))
    }
}

#[cfg(test)]
mod tests {
    use super::*;

    #[test]
    fn every_change_is_seen() {
        let before = [3, 4, 5];
        let untouched = Lent::holding("hours", &before, None);
        assert_eq!(untouched.part(), before);
        assert!(untouched.unchanged() && untouched.guards_stand());

        for place in 0..2 * GUARDS + before.len() {
            let mut lent = Lent::holding("hours", &before, None);
            lent.whole[place] ^= 1;
            let inside = (GUARDS..GUARDS + before.len()).contains(&place);
            assert_eq!((lent.unchanged(), lent.guards_stand()), (!inside, inside));
        }
    }

    #[test]
    fn lengths_are_held_against_what_is_needed() {
        let length = |needed| Lent::holding("codes", &[1_u8, 2], needed).length();
        assert_eq!(
            [3, 2, 1].map(|needed| length(Some(needed))),
            [Ordering::Less, Ordering::Equal, Ordering::Greater].map(Some)
        );
        assert_eq!(length(None), None);
    }
}
