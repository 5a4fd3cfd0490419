//! Every small table and every small series, tried out.

mod common;

use std::collections::{HashMap, HashSet};

use common::{all_nodes, column, look_through, made, shape, Made};
use second::hours::GAP;
use second::{finished, stopped, turn_back, Refusal};

const READINGS: [i32; 5] = [-2, -1, 0, 1, 2];
const MARKS: [i32; 3] = [2_000_001, 2_000_002, 2_000_003];
const OUT_OF_RANGE: [i32; 7] = [1_000_001, -1_000_001, 2_000_000, -2_000_001, 2_000_004, i32::MIN, i32::MAX];

/// Every list of this length over some choices.
fn lists<T: Copy>(length: usize, choices: &[T]) -> Vec<Vec<T>> {
    let mut lists = vec![vec![]];
    for _ in 0..length {
        lists = lists.iter().flat_map(|list| choices.iter().map(|&last| [&list[..], &[last]].concat())).collect();
    }
    lists
}

fn every_series(n: usize, readings: &[i32]) -> Vec<Vec<i32>> {
    lists(n, &[readings, &[GAP]].concat())
}

/// What the nodes of a table from node 0 on hold, in the order of examination and up to the last of them named.
type Prefix = Vec<(i32, i32)>;

/// Node 0 and all nodes in the order of examination, each with what it holds, a pair with its code twice.
fn in_order(n: u64, coefficients: &[i32], codes: &[u8]) -> Vec<(u64, (i32, i32))> {
    let shape = shape(n);
    let mut held = vec![(0, (coefficients[0], coefficients[1]))];
    for node in all_nodes(shape).into_iter().filter(|node| node.level < shape.l) {
        let number = node.number as usize;
        if shape.is_pair(node) {
            let code = i32::from(codes[number - shape.p as usize / 2]);
            held.push((node.number, (code, code)));
        } else {
            held.push((node.number, (coefficients[2 * number], coefficients[2 * number + 1])));
        }
    }
    held
}

/// All beginnings of tables, in the order of examination, that some series of P hours has whose hours from n on are
/// gaps as far as the pairs at the beginning cover them.
fn beginnings(n: u64) -> HashSet<Prefix> {
    let shape = shape(n);
    let mut beginnings = HashSet::new();
    for series in every_series(shape.p as usize, &READINGS) {
        let table = made(&series);
        let mut prefix = Prefix::new();
        for (number, held) in in_order(n, &table.coefficients, &table.codes) {
            if number > 0 && shape.is_pair(shape.node(number)) {
                let hours = shape.node(number).hours;
                if (hours.first.max(n)..hours.end).any(|hour| series[hour as usize] != GAP) {
                    break;
                }
            }
            prefix.push(held);
            beginnings.insert(prefix.clone());
        }
    }
    beginnings
}

/// A table is taken exactly if some series of n hours has it, and then it is turned back into that series, the only
/// one. Otherwise refusal 4 stands at the first node at which no series has the table's beginning.
fn every_table(n: u64) {
    let shape = shape(n);
    let p = shape.p as usize;
    let mut series_of: HashMap<(Vec<i32>, Vec<u8>), Vec<i32>> = HashMap::new();
    for series in every_series(n as usize, &READINGS) {
        let Made { coefficients, codes, .. } = made(&series);
        let other = series_of.insert((coefficients, codes), series.clone());
        assert_eq!(other, None, "one table of two series, {series:?} too");
    }
    let beginnings = beginnings(n);

    let roots = lists(2, &[&READINGS[..], &MARKS, &OUT_OF_RANGE].concat());
    let differences: Vec<i32> = (-4..=4).collect();
    let details = lists(p - 2, &[&differences[..], &MARKS, &OUT_OF_RANGE].concat());
    let all_codes = lists(p / 2, &[0, 1, 2, 3, 4, 5]);
    let mut taken = 0;
    for root in &roots {
        for details in &details {
            for codes in &all_codes {
                let table = ([&root[..], details].concat(), codes.clone());
                let mut hours = vec![77; n as usize];
                match (turn_back(n, &table.0, codes, &mut hours), series_of.get(&table)) {
                    (Ok(()), Some(series)) => {
                        assert_eq!(&hours, series, "table {table:?}");
                        taken += 1;
                    }
                    (Err(Refusal { number, place }), None) => {
                        let mut prefix = Prefix::new();
                        let first_bad = in_order(n, &table.0, codes).into_iter().find(|&(_, held)| {
                            prefix.push(held);
                            !beginnings.contains(&prefix)
                        });
                        assert_eq!((number, Some(place)), (4, first_bad.map(|(node, _)| node)), "table {table:?}");
                        assert_eq!(hours, vec![77; n as usize], "table {table:?}");
                    }
                    (answer, series) => panic!("n {n} table {table:?}: {answer:?}, series {series:?}"),
                }
            }
        }
    }
    assert_eq!(taken, series_of.len(), "every table of a series was among those tried");
}

#[test]
fn every_table_of_1_hour() {
    every_table(1);
}

#[test]
fn every_table_of_2_hours() {
    every_table(2);
}

#[test]
fn every_table_of_3_hours() {
    every_table(3);
}

#[test]
fn every_table_of_4_hours() {
    every_table(4);
}

/// Every column of every window of every short series, at every depth: finished answers are a look through the hours,
/// and depth l answers the same range.
#[test]
fn every_column_of_short_series() {
    for n in 1..=5u64 {
        let l = shape(n).l;
        for series in every_series(n as usize, &[1, 2]) {
            let Made { coefficients, codes, .. } = made(&series);
            for (a, b) in (0..n).flat_map(|a| (a + 1..=n).map(move |b| (a, b))) {
                for (w, k) in (1..=b - a + 2).flat_map(|w| (0..w).map(move |k| (w, k))) {
                    let column = column(a, b, w, k);
                    let hours = second::edges(n, column).unwrap();
                    let input = format!("{series:?} {column:?}");
                    let answer = finished(n, &coefficients, &codes, column).expect(&input);
                    assert_eq!(answer.answer, look_through(&series, hours), "{input}");
                    let deepest = stopped(n, &coefficients, &codes, column, l).expect(&input);
                    let range = answer.answer.map(|found| (found.low, found.high));
                    assert_eq!(deepest.outer.map(|range| (range.low, range.high)), range, "{input}");
                    assert_eq!(deepest.inner, deepest.outer, "{input}");
                }
            }
        }
    }
}
