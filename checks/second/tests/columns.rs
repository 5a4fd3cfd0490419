//! Column edges, and column answers on made tables against looks through the hours.

mod common;

use common::{all_nodes, column, draw_column, draw_n, draw_series, look_through, made, shape, value_of, Made};
use second::columns::Visit;
use second::random::Random;
use second::{edges, finished, stopped, Column, Finished, Hours, LowHigh, Stopped};

/// Hour t of a window of L hours drawn in w columns belongs to column floor(w·t / L).
#[test]
fn every_hour_of_a_window_is_in_its_column() {
    for length in 1..=40u64 {
        for w in 1..=45 {
            for a in [0, 3] {
                for k in 0..w {
                    let Hours { first, end } = edges(50, column(a, a + length, w, k)).unwrap();
                    let expected: Vec<u64> = (0..length).filter(|t| w * t / length == k).map(|t| a + t).collect();
                    let given: Vec<u64> = (first..end).collect();
                    assert_eq!(given, expected, "[{a}, {}) column {k} of {w}", a + length);
                }
            }
        }
    }
}

#[test]
fn columns_follow_each_other() {
    for (a, b, w) in [(0, 16_384, 4_096), (0, 16_384, 4_095), (1, 16_383, 77), (0, 1, 4_096), (16_383, 16_384, 1)] {
        let mut end = a;
        for k in 0..w {
            let hours = edges(16_384, column(a, b, w, k)).unwrap();
            assert_eq!(hours.first, end, "[{a}, {b}) column {k} of {w}");
            end = hours.end;
        }
        assert_eq!(end, b, "[{a}, {b}) in {w} columns");
    }
}

/// The visited nodes of a column at a depth, picked out of the list of all nodes by looks through the hours.
fn visited_on_readings(readings: &[i32], hours: Hours, depth: u64) -> Vec<Visit> {
    let nodes = all_nodes(shape(readings.len() as u64));
    let opened: Vec<u64> = nodes
        .iter()
        .filter(|node| node.hours.shares_an_hour_with(hours) && !node.hours.wholly_inside(hours))
        .filter(|node| node.level < depth && value_of(readings, **node).is_some())
        .map(|node| node.number)
        .collect();
    nodes
        .iter()
        .filter(|node| node.number == 1 || opened.contains(&(node.number / 2)))
        .map(|&node| Visit { node, value: value_of(readings, node), opened: opened.contains(&node.number) })
        .collect()
}

fn least_and_greatest(visits: &[Visit], counts: impl Fn(&Visit) -> bool) -> Option<LowHigh> {
    let values = || visits.iter().filter(|visit| !visit.opened && counts(visit)).filter_map(|visit| visit.value);
    Some(LowHigh { low: values().map(|value| value.low).min()?, high: values().map(|value| value.high).max()? })
}

fn stopped_on_readings(readings: &[i32], hours: Hours, depth: u64) -> Stopped {
    if hours.is_empty() {
        return Stopped { outer: None, inner: None, count: 0 };
    }
    let visits = visited_on_readings(readings, hours, depth);
    Stopped {
        outer: least_and_greatest(&visits, |visit| visit.node.hours.shares_an_hour_with(hours)),
        inner: least_and_greatest(&visits, |visit| visit.node.hours.wholly_inside(hours)),
        count: visits.len() as u64,
    }
}

fn finished_on_readings(readings: &[i32], hours: Hours) -> Finished {
    let l = shape(readings.len() as u64).l;
    let answer = look_through(readings, hours);
    if hours.is_empty() {
        return Finished { answer, count: 0 };
    }
    let visits = visited_on_readings(readings, hours, l);
    let inside: Vec<&Visit> =
        visits.iter().filter(|visit| visit.node.hours.wholly_inside(hours) && visit.value.is_some()).collect();
    let walked = match (inside.first(), inside.last()) {
        (Some(first), Some(last)) => 2 * l - first.node.level - last.node.level,
        _ => 0,
    };
    Finished { answer, count: visits.len() as u64 + walked }
}

#[test]
fn finished_columns_are_a_look_through_the_hours() {
    let seed = 11;
    let mut random = Random::new(seed);
    let mut without_reading = 0;
    for _ in 0..15_000 {
        let n = draw_n(&mut random, 70);
        let Made { readings, coefficients, codes, .. } = made(&draw_series(&mut random, n));
        let l = shape(n).l;
        for _ in 0..4 {
            let column = draw_column(&mut random, n);
            let input = format!("seed {seed}, {readings:?} {column:?}");
            let hours = edges(n, column).expect(&input);
            let given = finished(n, &coefficients, &codes, column).expect(&input);
            assert_eq!(given, finished_on_readings(&readings, hours), "{input}");
            assert!(given.count < 6 * l, "{input}");
            without_reading += u64::from(given.answer.is_none() && !hours.is_empty());
        }
    }
    assert!(without_reading > 100, "columns with hours but without a reading occur");
}

#[test]
fn stopped_columns_at_every_depth() {
    let seed = 12;
    let mut random = Random::new(seed);
    let mut greatest = [0; 8];
    for _ in 0..25_000 {
        let n = draw_n(&mut random, 70);
        let Made { readings, coefficients, codes, .. } = made(&draw_series(&mut random, n));
        let column = draw_column(&mut random, n);
        let hours = edges(n, column).unwrap();
        let truth = look_through(&readings, hours).map(|found| LowHigh { low: found.low, high: found.high });
        let l = shape(n).l;
        let mut shallower: Option<Stopped> = None;
        for depth in 0..=l {
            let input = format!("seed {seed}, {readings:?} {column:?} depth {depth}");
            let given = stopped(n, &coefficients, &codes, column, depth).expect(&input);
            assert_eq!(given, stopped_on_readings(&readings, hours, depth), "{input}");
            let (count, at_most) = (given.count, if depth == 0 { 1 } else { 4 * depth - 1 });
            assert!(count <= at_most, "{input}");
            greatest[depth as usize] = count.max(greatest[depth as usize]);

            assert!(within(truth, given.outer), "{input}: outer holds every reading");
            assert!(within(given.inner, truth), "{input}: inner is held by the readings");
            if let Some(shallower) = shallower {
                assert!(within(given.outer, shallower.outer), "{input}: deeper never widens outer");
                assert!(within(shallower.inner, given.inner), "{input}: deeper never narrows inner");
            }
            if depth == l {
                assert_eq!((given.outer, given.inner), (truth, truth), "{input}");
            }
            shallower = Some(given);
        }
    }
    assert_eq!(greatest, [1, 3, 7, 11, 15, 19, 23, 27], "4·d − 1 is reached at every depth");
}

/// Whether the first range, if there is one, lies in the second.
fn within(one: Option<LowHigh>, other: Option<LowHigh>) -> bool {
    match (one, other) {
        (None, _) => true,
        (Some(_), None) => false,
        (Some(one), Some(other)) => other.low <= one.low && one.high <= other.high,
    }
}

#[test]
fn long_series() {
    let seed = 13;
    let mut random = Random::new(seed);
    for n in [16_384, 16_383, 8_193, 8_192, 10_000] {
        let Made { readings, coefficients, codes, .. } = made(&draw_series(&mut random, n));
        let l = shape(n).l;
        for _ in 0..200 {
            let column = draw_column(&mut random, n);
            let input = format!("seed {seed}, n {n} {column:?}");
            let hours = edges(n, column).expect(&input);
            let given = finished(n, &coefficients, &codes, column).expect(&input);
            assert_eq!(given.answer, look_through(&readings, hours), "{input}");
            assert!(given.count < 6 * l, "{input}");
            let deepest = stopped(n, &coefficients, &codes, column, l).expect(&input);
            let range = given.answer.map(|found| LowHigh { low: found.low, high: found.high });
            assert_eq!((deepest.outer, deepest.inner), (range, range), "{input}");
        }
    }
}

#[test]
fn numbers_past_the_table_are_not_looked_at() {
    let Made { mut coefficients, mut codes, .. } = made(&common::SEVEN_HOURS);
    let columns: Vec<Column> = (0..3).map(|k| column(0, 7, 3, k)).collect();
    let before: Vec<_> = columns.iter().map(|&column| finished(7, &coefficients, &codes, column)).collect();
    coefficients.extend([i32::MIN, 5, i32::MAX]);
    codes.extend([9, 9]);
    let after: Vec<_> = columns.iter().map(|&column| finished(7, &coefficients, &codes, column)).collect();
    assert_eq!(before, after);
}
