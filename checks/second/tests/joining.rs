//! Joining answers.

mod common;

use common::{column, draw_n, draw_series, made, shape, Made};
use second::random::Random;
use second::{finished, join, Answer, Found, Reading};

/// Any answer at all, its fields not even in order.
fn draw_answer(random: &mut Random) -> Answer {
    if random.once_in(4) {
        return None;
    }
    let mut grams = || random.one_of(&[-1_000_000, -1, 0, 1, 2, 7, 1_000_000, i32::MIN, i32::MAX]);
    let (first, last, low, high) = (grams(), grams(), grams(), grams());
    let mut hour = || random.one_of(&[0, 1, 2, 16_383, u64::MAX]);
    Some(Found {
        first: Reading { hour: hour(), grams: first },
        last: Reading { hour: hour(), grams: last },
        low,
        high,
    })
}

#[test]
fn first_from_the_left_last_from_the_right() {
    let reading = |hour, grams| Reading { hour, grams };
    let left = Found { first: reading(1, 10), last: reading(2, 30), low: 5, high: 30 };
    let right = Found { first: reading(4, 20), last: reading(6, 25), low: 7, high: 26 };
    let joined = Found { first: reading(1, 10), last: reading(6, 25), low: 5, high: 30 };
    assert_eq!(join(Some(left), Some(right)), Some(joined));
    let other_way = Found { first: reading(4, 20), last: reading(2, 30), low: 5, high: 30 };
    assert_eq!(join(Some(right), Some(left)), Some(other_way));
    assert_eq!(join(None, Some(right)), Some(right));
    assert_eq!(join(Some(left), None), Some(left));
    assert_eq!(join(None, None), None);
}

#[test]
fn grouping_does_not_matter() {
    let seed = 41;
    let mut random = Random::new(seed);
    for _ in 0..50_000 {
        let [a, b, c] = std::array::from_fn(|_| draw_answer(&mut random));
        assert_eq!(join(a, join(b, c)), join(join(a, b), c), "seed {seed}, {a:?} {b:?} {c:?}");
    }
}

#[test]
fn a_column_cut_in_two_is_its_parts_joined() {
    let seed = 42;
    let mut random = Random::new(seed);
    for _ in 0..20_000 {
        let n = 1 + draw_n(&mut random, 70);
        let Made { readings, coefficients, codes, .. } = made(&draw_series(&mut random, n));
        let a = random.below(n - 1);
        let b = a + 2 + random.below(n - a - 1);
        let cut = a + 1 + random.below(b - a - 1);
        let whole = |a, b| finished(n, &coefficients, &codes, column(a, b, 1, 0)).unwrap().answer;
        assert_eq!(whole(a, b), join(whole(a, cut), whole(cut, b)), "seed {seed}, {a} {cut} {b} of {readings:?}");
    }
}

#[test]
fn all_columns_of_a_window_joined_are_the_window() {
    let seed = 43;
    let mut random = Random::new(seed);
    for n in [7, 33, 64, 1_000, 16_384] {
        let Made { coefficients, codes, .. } = made(&draw_series(&mut random, n));
        assert_eq!(coefficients.len() as u64, shape(n).p);
        for w in [1, 2, 3, 100, 4_096] {
            let answer = |w, k| finished(n, &coefficients, &codes, column(0, n, w, k)).unwrap().answer;
            let joined = (0..w).map(|k| answer(w, k)).fold(None, join);
            assert_eq!(joined, answer(1, 0), "seed {seed}, n {n}, w {w}");
        }
    }
}
