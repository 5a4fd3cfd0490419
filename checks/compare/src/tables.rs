//! Tables as they are drawn: sound, damaged and invented. What stands at the edges is listed besides.

use second::hours::{GAP, GREATEST_READING};
use second::table::{NEITHER, ONLY_LEFT, ONLY_RIGHT};

use crate::drawing::{Drawing, Topic};
use crate::numbers::{Room, MOST};
use crate::series::{draw_series, NO_READINGS};

/// A table, sound or not.
#[derive(Clone, Debug, PartialEq, Eq)]
pub struct Table {
    /// Its coefficients.
    pub coefficients: Vec<i32>,
    /// Its codes.
    pub codes: Vec<u8>,
}

impl Table {
    /// The table of a series, by the second program.
    pub fn made(readings: &[i32]) -> Table {
        let n = readings.len();
        let room = Room::of_series(n).expect("n is from 1 to 16,384");
        let (mut coefficients, mut codes) = (vec![0; room.coefficients], vec![0; room.codes]);
        let made = second::make(n as u64, readings, &mut coefficients, &mut codes);
        made.unwrap_or_else(|refusal| panic!("{refusal}: {readings:?}"));
        Table { coefficients, codes }
    }
}

/// What is drawn of tables: as they are made, changed after that, or invented.
#[rustfmt::skip]
pub const CHANGES: Topic = Topic {
    name: "table",
    drawn: &[
        "as made", "of other hours", "root changed", "a node changed", "one changed", "some changed", "exchanged",
        "invented",
    ],
};

/// A table for this room: made from readings, made and then changed, or invented. A note is taken of which.
pub fn draw_table(random: &mut Drawing, room: Room) -> Table {
    if room.hours > MOST {
        return Table { coefficients: vec![GAP; room.coefficients], codes: vec![4; room.codes] };
    }
    match random.below(20) {
        0 | 1 => {
            random.note("invented");
            draw_invented(random, room)
        }
        // A series with as many coefficients, but perhaps more or fewer hours.
        2 | 3 => {
            random.note("of other hours");
            let hours = room.codes + 1 + random.below(room.codes as u64) as usize;
            Table::made(&draw_series(random, hours))
        }
        kind => {
            let mut table = Table::made(&draw_series(random, room.hours));
            match kind {
                4 => damage_node(random, &mut table, 0),
                5 => {
                    let node = random.below(2 * room.codes as u64) as usize;
                    damage_node(random, &mut table, node);
                }
                6..=8 => damage(random, &mut table, 1),
                9 | 10 => damage(random, &mut table, 3),
                11 | 12 => exchange(random, &mut table),
                _ => random.note("as made"),
            }
            table
        }
    }
}

/// Changes a coefficient or a code, so many times.
fn damage(random: &mut Drawing, table: &mut Table, times: usize) {
    random.note(if times == 1 { "one changed" } else { "some changed" });
    for _ in 0..times {
        if random.once_in(3) {
            let place = random.below(table.codes.len() as u64) as usize;
            table.codes[place] = draw_code(random);
            continue;
        }
        let place = random.below(table.coefficients.len() as u64) as usize;
        let old = table.coefficients[place];
        let new = match random.below(6) {
            0 => draw_mark(random),
            1 => random.one_of(&[-2_000_001, -2_000_000, 2_000_000, GAP + 1, 0, i32::MIN, i32::MAX]),
            2 => old.wrapping_neg(),
            3 => random.between(-GREATEST_READING, GREATEST_READING),
            _ => old.wrapping_add(random.one_of(&[-2, -1, 1, 2])),
        };
        table.coefficients[place] = new;
        if times > 1 && random.once_in(3) {
            table.coefficients[place ^ 1] = new;
        }
    }
}

/// Exchanges two coefficients, the low and the high of one node, both details of two nodes, or two codes.
fn exchange(random: &mut Drawing, table: &mut Table) {
    random.note("exchanged");
    let Table { coefficients, codes } = table;
    let (nodes, pairs) = (coefficients.len() / 2, codes.len());
    let mut below = |places: usize| random.below(places as u64) as usize;
    match below(4) {
        0 => coefficients.swap(below(2 * nodes), below(2 * nodes)),
        1 => {
            let node = below(nodes);
            coefficients.swap(2 * node, 2 * node + 1);
        }
        2 => {
            let (node, other) = (below(nodes), below(nodes));
            coefficients.swap(2 * node, 2 * other);
            coefficients.swap(2 * node + 1, 2 * other + 1);
        }
        _ => codes.swap(below(pairs), below(pairs)),
    }
}

/// Changes what a table holds of one node, 0 standing for the root values, mostly so that it is unsound.
pub fn damage_node(random: &mut Drawing, table: &mut Table, node: usize) {
    random.note(if node == 0 { "root changed" } else { "a node changed" });
    let pairs_from = table.codes.len();
    if node == 0 {
        return damage_root(random, table);
    }
    if node >= pairs_from {
        table.codes[node - pairs_from] = random.one_of(&[0, 1, 2, 3, 4, 5, 255]);
        return;
    }
    let details = &mut table.coefficients[2 * node..][..2];
    match random.below(5) {
        0 => details[0] = random.one_of(&[-2_000_001, i32::MIN]),
        1 => details[1] = random.one_of(&[GAP + 1, i32::MAX]),
        2 => details[random.below(2) as usize] = draw_mark(random),
        3 => details.fill(draw_mark(random)),
        _ => details.fill(random.one_of(&[-2_000_000, 2_000_000])),
    }
}

/// Low over high, a single mark, a wrong mark, or out of the range of readings.
fn damage_root(random: &mut Drawing, table: &mut Table) {
    let root = &mut table.coefficients[..2];
    match random.below(5) {
        0 => root.swap(0, 1),
        1 => root[0] = root[1].wrapping_add(1),
        2 => root[random.below(2) as usize] = draw_mark(random),
        3 => root.fill(draw_mark(random)),
        _ => root[random.below(2) as usize] = random.one_of(NO_READINGS),
    }
}

/// A table of no series in particular: small numbers and marks, which are now and then sound, or anything.
fn draw_invented(random: &mut Drawing, room: Room) -> Table {
    let wild = random.once_in(4);
    let marks = random.one_of(&[0, 2, 4]);
    let mut coefficients = Vec::with_capacity(room.coefficients);
    while coefficients.len() < room.coefficients {
        let pair = if wild {
            [random.draw() as i32, random.draw() as i32]
        } else if marks > 0 && random.once_in(marks) {
            [draw_mark(random); 2]
        } else {
            [random.between(-3, 3), random.between(-3, 3)]
        };
        coefficients.extend(pair);
    }
    if !wild {
        coefficients[..2].sort_unstable();
    }
    Table { coefficients, codes: (0..room.codes).map(|_| draw_code(random)).collect() }
}

fn draw_mark(random: &mut Drawing) -> i32 {
    random.one_of(&[ONLY_LEFT, ONLY_RIGHT, NEITHER])
}

/// A code, seldom none.
fn draw_code(random: &mut Drawing) -> u8 {
    random.one_of(&[0, 0, 0, 1, 1, 1, 2, 2, 3, 3, 4, 4, 5, 128, 255])
}

/// The codes there are, and the first that is none.
const CODES: [u8; 6] = [0, 1, 2, 3, 4, 5];

/// Small tables over all numbers that matter, each with its n.
pub fn edge_tables() -> Vec<(usize, Table)> {
    [edge_roots(), edge_details()].concat()
}

/// Each of these with each of them, itself too: all those of the first, then all those of the second, and so on.
fn every_two<T: Copy>(these: &[T]) -> impl Iterator<Item = (T, T)> + '_ {
    these.iter().flat_map(move |&first| these.iter().map(move |&second| (first, second)))
}

/// Every root with every code for one pair.
fn edge_roots() -> Vec<(usize, Table)> {
    #[rustfmt::skip]
    const ROOTS: [i32; 13] = [
        i32::MIN, -GREATEST_READING - 1, -GREATEST_READING, -1, 0, 1, GREATEST_READING, GREATEST_READING + 1,
        ONLY_LEFT, ONLY_RIGHT, NEITHER, NEITHER + 1, i32::MAX,
    ];
    let mut tables = Vec::new();
    for (low, high) in every_two(&ROOTS) {
        for code in CODES.into_iter().chain([128, 255]) {
            for n in [1, 2] {
                tables.push((n, Table { coefficients: vec![low, high], codes: vec![code] }));
            }
        }
    }
    tables
}

/// Every pair of details with every two codes for a node over two pairs.
fn edge_details() -> Vec<(usize, Table)> {
    #[rustfmt::skip]
    const DETAILS: [i32; 16] = [
        i32::MIN, -2_000_001, -2_000_000, -6, -5, -1, 0, 1, 5, 6, 2_000_000,
        ONLY_LEFT, ONLY_RIGHT, NEITHER, NEITHER + 1, i32::MAX,
    ];
    let mut tables = Vec::new();
    for root in [[-5, 0], [3, 3], [-GREATEST_READING, GREATEST_READING], [NEITHER, NEITHER]] {
        for (low_detail, high_detail) in every_two(&DETAILS) {
            for (first, second) in every_two(&CODES) {
                let coefficients = vec![root[0], root[1], low_detail, high_detail];
                let n = if (first + second) % 2 == 0 { 4 } else { 3 };
                tables.push((n, Table { coefficients, codes: vec![first, second] }));
            }
        }
    }
    tables
}

#[cfg(test)]
mod tests {
    use std::collections::BTreeSet;

    use super::*;

    #[test]
    fn tables_have_the_room_asked_for() {
        let mut random = Drawing::new(2);
        let mut notes = BTreeSet::new();
        for _ in 0..2_000 {
            let room = Room::of(1 + random.below(60) as usize);
            let table = draw_table(&mut random, room);
            assert_eq!((table.coefficients.len(), table.codes.len()), (room.coefficients, room.codes));
            notes.extend(random.notes());
        }
        assert!(CHANGES.drawn.iter().all(|change| notes.contains(change)));
    }
}
