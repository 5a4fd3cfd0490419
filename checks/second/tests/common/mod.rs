//! What several tests share: making tables, drawing series, and document 01's rules told a second time as plain looks
//! through hours and lists of all nodes.
#![allow(dead_code)]

use second::hours::GAP;
use second::random::Random;
use second::table::{NEITHER, ONLY_LEFT, ONLY_RIGHT};
use second::{make, Answer, Column, Found, Hours, LowHigh, Node, Reading, Refusal, Shape};

/// The printer's seven hours.
pub const SEVEN_HOURS: [i32; 7] = [41200, 41350, GAP, 40900, 32760, 32790, GAP];

/// A series with its table.
#[derive(Clone, Debug)]
pub struct Made {
    pub n: u64,
    pub readings: Vec<i32>,
    pub coefficients: Vec<i32>,
    pub codes: Vec<u8>,
}

/// Makes the table of a series of 1 to 16,384 hours.
pub fn made(readings: &[i32]) -> Made {
    let n = readings.len() as u64;
    let p = shape(n).p as usize;
    let (mut coefficients, mut codes) = (vec![0; p], vec![0; p / 2]);
    make(n, readings, &mut coefficients, &mut codes).unwrap_or_else(|refusal| panic!("{refusal}: {readings:?}"));
    Made { n, readings: readings.to_vec(), coefficients, codes }
}

pub fn shape(n: u64) -> Shape {
    Shape::of(n).expect("n is from 1 to 16,384")
}

pub fn column(a: u64, b: u64, w: u64, k: u64) -> Column {
    Column { a, b, w, k }
}

pub fn refusal(number: u8, place: u64) -> Refusal {
    Refusal { number, place }
}

pub fn range(low: i32, high: i32) -> Option<LowHigh> {
    Some(LowHigh { low, high })
}

/// A series of n hours: with few, many or only gaps, with close, far or extreme readings.
pub fn draw_series(random: &mut Random, n: u64) -> Vec<i32> {
    let gaps = random.one_of(&[0, 1, 2, 3, 10, 200]);
    let (least, greatest) = random.one_of(&[(0, 1), (-3, 3), (30_000, 50_000), (-1_000_000, 1_000_000)]);
    let extremes = random.once_in(4);
    (0..n)
        .map(|_| {
            if gaps > 0 && random.once_in(gaps) {
                GAP
            } else if extremes {
                random.one_of(&[-1_000_000, 1_000_000, 0])
            } else {
                random.between(least, greatest)
            }
        })
        .collect()
}

/// A number of hours up to `most`, often close to a power of two.
pub fn draw_n(random: &mut Random, most: u64) -> u64 {
    let powers = u64::from(most.ilog2()) + 1;
    let n = match random.below(3) {
        0 => (1 << random.below(powers)) + random.below(3) - 1,
        1 => 1 + random.below(20),
        _ => 1 + random.below(most),
    };
    n.clamp(1, most)
}

/// A column of a window of the series, w from 1 to a few more than the hours of the window.
pub fn draw_column(random: &mut Random, n: u64) -> Column {
    let a = random.below(n);
    let b = a + 1 + random.below(n - a);
    let (a, b) = if random.once_in(4) { (0, n) } else { (a, b) };
    let most = random.one_of(&[4, (b - a + 3).min(4_096)]);
    let w = 1 + random.below(most);
    column(a, b, w, random.below(w))
}

/// A damaged table: up to three coefficients or codes replaced.
pub fn damage(random: &mut Random, table: &mut Made) {
    for _ in 0..1 + random.below(3) {
        if random.once_in(2) {
            let place = random.below(table.coefficients.len() as u64) as usize;
            let old = table.coefficients[place];
            let new = match random.below(5) {
                0 => random.one_of(&[ONLY_LEFT, ONLY_RIGHT, NEITHER]),
                1 => random.one_of(&[1_000_001, -1_000_001, 2_000_000, -2_000_001, 2_000_004, i32::MIN, i32::MAX]),
                2 => old.wrapping_neg(),
                _ => old.wrapping_add(random.between(-2, 2)),
            };
            table.coefficients[place] = new;
            if random.once_in(3) {
                table.coefficients[place ^ 1] = new;
            }
        } else {
            let place = random.below(table.codes.len() as u64) as usize;
            table.codes[place] = random.one_of(&[0, 1, 2, 3, 4, 5, 255]);
        }
    }
}

/// What an hour of a series holds, gaps from n on.
pub fn held(readings: &[i32], hour: u64) -> Option<i32> {
    readings.get(hour as usize).copied().filter(|&held| held != GAP)
}

/// The finished answer without its count, by a look through the hours.
pub fn look_through(readings: &[i32], hours: Hours) -> Answer {
    let found: Vec<Reading> =
        (hours.first..hours.end).filter_map(|hour| Some(Reading { hour, grams: held(readings, hour)? })).collect();
    Some(Found {
        first: *found.first()?,
        last: *found.last()?,
        low: found.iter().map(|reading| reading.grams).min()?,
        high: found.iter().map(|reading| reading.grams).max()?,
    })
}

/// Low and high of a node, by a look through its hours.
pub fn value_of(readings: &[i32], node: Node) -> Option<LowHigh> {
    look_through(readings, node.hours).map(|found| LowHigh { low: found.low, high: found.high })
}

/// All nodes from node 1 to the single hours in the order of examination: each before its halves, all below the left
/// half before the right half. A node comes before another one if its first hour does, or if it covers more hours
/// from the same first hour on.
pub fn all_nodes(shape: Shape) -> Vec<Node> {
    let mut nodes: Vec<Node> = (1..2 * shape.p).map(|number| shape.node(number)).collect();
    nodes.sort_by_key(|node| (node.hours.first, node.level));
    nodes
}
