//! Making and turning back, by random search.

mod common;

use common::{draw_n, draw_series, made, refusal, shape};
use second::hours::GAP;
use second::random::Random;
use second::{make, turn_back, Shape};

/// Series of n hours are made into a table and turned back, with longer buffers whose rest stays as it was.
fn there_and_back(seed: u64, random: &mut Random, n: u64) {
    let series = draw_series(random, n);
    let p = shape(n).p as usize;
    let (more, guard) = (random.below(4) as usize, random.draw() as u8);
    let mut readings = series.clone();
    readings.resize(series.len() + more, i32::MAX);
    let (mut coefficients, mut codes) = (vec![i32::from(guard); p + more], vec![guard; p / 2 + more]);
    let mut hours = vec![i32::from(guard); series.len() + more];
    let input = format!("seed {seed}, n {n}, series {series:?}");

    assert_eq!(make(n, &readings, &mut coefficients, &mut codes), Ok(()), "{input}");
    assert_eq!(coefficients[p..], vec![i32::from(guard); more], "{input}");
    assert_eq!(codes[p / 2..], vec![guard; more], "{input}");
    assert_eq!(turn_back(n, &coefficients, &codes, &mut hours), Ok(()), "{input}");
    assert_eq!(hours[..series.len()], series, "{input}");
    assert_eq!(hours[series.len()..], vec![i32::from(guard); more], "{input}");
}

#[test]
fn made_tables_turn_back() {
    let seed = 1;
    let mut random = Random::new(seed);
    for _ in 0..20_000 {
        let n = draw_n(&mut random, 130);
        there_and_back(seed, &mut random, n);
    }
}

#[test]
fn made_tables_turn_back_around_every_power_of_two() {
    let seed = 2;
    let mut random = Random::new(seed);
    for l in 1..=14u64 {
        for n in [(1 << l) - 1, 1 << l, (1 << l) + 1] {
            for _ in 0..12 {
                if n <= 16_384 {
                    there_and_back(seed, &mut random, n);
                }
            }
        }
    }
}

#[test]
fn the_first_two_places_are_low_and_high_and_details_are_differences() {
    let seed = 3;
    let mut random = Random::new(seed);
    for _ in 0..2_000 {
        let n = draw_n(&mut random, 70);
        let table = made(&draw_series(&mut random, n));
        let input = format!("seed {seed}, {table:?}");
        let shape = shape(n);
        let value = |number| common::value_of(&table.readings, shape.node(number));
        let root = value(1).map_or((GAP, GAP), |value| (value.low, value.high));
        assert_eq!((table.coefficients[0], table.coefficients[1]), root, "{input}");
        for i in 1..shape.p / 2 {
            let expected = match (value(2 * i), value(2 * i + 1)) {
                (Some(left), Some(right)) => (left.low - right.low, left.high - right.high),
                (left, right) => {
                    let mark = 2_000_003 - i32::from(right.is_some()) - 2 * i32::from(left.is_some());
                    (mark, mark)
                }
            };
            let place = 2 * i as usize;
            assert_eq!((table.coefficients[place], table.coefficients[place + 1]), expected, "node {i}, {input}");
        }
    }
}

#[test]
fn shapes() {
    for n in 1..=16_384u64 {
        let Shape { n: same, p, l } = shape(n);
        assert_eq!(same, n);
        assert!(p == 1 << l && p >= n && p >= 2 && (1..=14).contains(&l), "n {n}");
        assert!(p == 2 || p / 2 < n, "n {n}: a smaller power of two would do");
    }
    for n in [0, 16_385, 32_768, 1 << 32, (1 << 32) + 1, 1 << 63, u64::MAX] {
        assert_eq!(Shape::of(n), Err(refusal(1, 0)), "n {n}");
    }
}

#[test]
fn nodes_cover_their_halves() {
    for n in [1, 2, 3, 4, 5, 8, 9, 33] {
        let shape = shape(n);
        let root = shape.node(1);
        assert_eq!((root.level, root.hours.first, root.hours.end), (0, 0, shape.p));
        for node in (1..shape.p).map(|number| shape.node(number)) {
            let (left, right) = shape.halves(node);
            assert_eq!((left.number, right.number), (2 * node.number, 2 * node.number + 1));
            assert_eq!((left.level, right.level), (node.level + 1, node.level + 1));
            assert_eq!((left.hours.first, right.hours.end), (node.hours.first, node.hours.end));
            assert_eq!(left.hours.end, right.hours.first);
            assert_eq!(left.hours.end - left.hours.first, right.hours.end - right.hours.first);
            assert_eq!(shape.is_pair(node), node.hours.end - node.hours.first == 2);
        }
    }
}
