//! Damaged tables: which node is the place of refusal 4, and what is answered where no unsound node is examined. The
//! rules are told here a second time, on the list of all nodes.

mod common;

use std::collections::HashMap;

use common::{all_nodes, damage, draw_column, draw_n, draw_series, made, refusal, shape, Made};
use second::hours::GAP;
use second::random::Random;
use second::{day_change, edges, finished, stopped, turn_back};
use second::{Finished, Found, Hours, LowHigh, Node, Reading, Refusal, Shape, Stopped};

/// A node as reached from above: its low and high, if it has a reading, and whether it is sound.
#[derive(Clone, Copy)]
struct Reached {
    value: Option<(i64, i64)>,
    sound: bool,
}

/// Every node that has only sound nodes above it, by its number. Node 0 stands for the root values.
struct Nodes {
    shape: Shape,
    reached: HashMap<u64, Reached>,
}

fn nodes_of(table: &Made) -> Nodes {
    let shape = shape(table.n);
    let at = |place: u64| i64::from(table.coefficients[place as usize]);
    let reading = |number: i64| number.abs() <= 1_000_000;
    let mut reached = HashMap::new();

    let root = (at(0), at(1));
    let empty = root == (2_000_003, 2_000_003);
    let sound = empty || reading(root.0) && reading(root.1) && root.0 <= root.1;
    reached.insert(0, Reached { value: None, sound });
    let mut values: HashMap<u64, Option<(i64, i64)>> = HashMap::new();
    if sound {
        values.insert(1, (!empty).then_some(root));
    }
    for i in 1..shape.p {
        let Some(&value) = values.get(&i) else {
            continue;
        };
        let halves = if i < shape.p / 2 {
            halves_of_details(value, at(2 * i), at(2 * i + 1))
        } else {
            let first_hour = shape.node(i).hours.first;
            halves_of_code(value, table.codes[(i - shape.p / 2) as usize])
                .filter(|(first, _)| first.is_none() || first_hour < table.n)
                .filter(|(_, second)| second.is_none() || first_hour + 1 < table.n)
        };
        reached.insert(i, Reached { value, sound: halves.is_some() });
        if let Some((left, right)) = halves {
            values.insert(2 * i, left);
            values.insert(2 * i + 1, right);
        }
    }
    for hour in shape.p..2 * shape.p {
        if let Some(&value) = values.get(&hour) {
            reached.insert(hour, Reached { value, sound: true });
        }
    }
    Nodes { shape, reached }
}

type Halves = (Option<(i64, i64)>, Option<(i64, i64)>);

/// The halves of a sound node with these details: the two lows whose lesser is the node's and whose difference is the
/// low detail, and the two highs whose greater is the node's and whose difference is the high detail.
fn halves_of_details(value: Option<(i64, i64)>, low_detail: i64, high_detail: i64) -> Option<Halves> {
    let Some((low, high)) = value else {
        return (low_detail == 2_000_003 && high_detail == 2_000_003).then_some((None, None));
    };
    match (low_detail, high_detail) {
        (2_000_001, 2_000_001) => Some((value, None)),
        (2_000_002, 2_000_002) => Some((None, value)),
        _ if low_detail.abs() <= 2_000_000 && high_detail.abs() <= 2_000_000 => {
            let left = (low + low_detail.max(0), high + high_detail.min(0));
            let right = (low - low_detail.min(0), high - high_detail.max(0));
            (left.0 <= left.1 && right.0 <= right.1).then_some((Some(left), Some(right)))
        }
        _ => None,
    }
}

fn halves_of_code(value: Option<(i64, i64)>, code: u8) -> Option<Halves> {
    let Some((low, high)) = value else {
        return (code == 4).then_some((None, None));
    };
    let hour = |reading| Some((reading, reading));
    match code {
        0 => Some((hour(high), hour(low))),
        1 if low < high => Some((hour(low), hour(high))),
        2 if low == high => Some((hour(low), None)),
        3 if low == high => Some((None, hour(low))),
        _ => None,
    }
}

impl Nodes {
    fn value(&self, number: u64) -> Option<(i64, i64)> {
        self.reached.get(&number).and_then(|reached| reached.value)
    }

    /// The first unsound node of a list; one that was not reached has an unsound one above it and does not count.
    fn first_unsound(&self, numbers: impl IntoIterator<Item = u64>) -> Option<Refusal> {
        let unsound = |number: &u64| self.reached.get(number).is_some_and(|reached| !reached.sound);
        numbers.into_iter().find(unsound).map(|number| refusal(4, number))
    }

    fn opened(&self, hours: Hours, depth: u64) -> Vec<Node> {
        all_nodes(self.shape)
            .into_iter()
            .filter(|node| self.value(node.number).is_some())
            .filter(|node| node.hours.shares_an_hour_with(hours) && !node.hours.wholly_inside(hours))
            .filter(|node| node.level < depth)
            .collect()
    }

    /// The visited, unopened nodes that are not empty, in the order of their hours.
    fn ends(&self, opened: &[Node]) -> Vec<Node> {
        let is_opened = |number: u64| opened.iter().any(|node| node.number == number);
        all_nodes(self.shape)
            .into_iter()
            .filter(|node| node.number == 1 || is_opened(node.number / 2))
            .filter(|node| !is_opened(node.number) && self.value(node.number).is_some())
            .collect()
    }

    fn range(&self, nodes: &[Node], counts: impl Fn(&Node) -> bool) -> Option<LowHigh> {
        let values = || nodes.iter().filter(|node| counts(node)).filter_map(|node| self.value(node.number));
        let low = values().map(|value| value.0).min()?;
        let high = values().map(|value| value.1).max()?;
        Some(LowHigh { low: low as i32, high: high as i32 })
    }

    fn stopped(&self, hours: Hours, depth: u64) -> Result<Stopped, Refusal> {
        if hours.is_empty() {
            return Ok(Stopped { outer: None, inner: None, count: 0 });
        }
        let opened = self.opened(hours, depth);
        let examined = std::iter::once(0).chain(opened.iter().map(|node| node.number));
        if let Some(refusal) = self.first_unsound(examined) {
            return Err(refusal);
        }
        let ends = self.ends(&opened);
        Ok(Stopped {
            outer: self.range(&ends, |node| node.hours.shares_an_hour_with(hours)),
            inner: self.range(&ends, |node| node.hours.wholly_inside(hours)),
            count: 1 + 2 * opened.len() as u64,
        })
    }

    /// The nodes of a walk, as far as sound nodes lead, and the reading at its end.
    fn walk(&self, start: Node, right_first: bool) -> (Vec<u64>, Option<Reading>) {
        let (mut number, mut walked) = (start.number, Vec::new());
        while number < self.shape.p {
            walked.push(number);
            let halves = if right_first { [2 * number + 1, 2 * number] } else { [2 * number, 2 * number + 1] };
            let Some(half) = halves.into_iter().find(|&half| self.value(half).is_some()) else {
                return (walked, None);
            };
            number = half;
        }
        let reading = self.value(number).map(|(grams, _)| Reading { hour: number - self.shape.p, grams: grams as i32 });
        (walked, reading)
    }

    fn finished(&self, hours: Hours) -> Result<Finished, Refusal> {
        let l = self.shape.l;
        let deepest = self.stopped(hours, l)?;
        let mut inside = self.ends(&self.opened(hours, l));
        inside.retain(|node| node.hours.wholly_inside(hours));
        let (false, Some(first), Some(last)) = (hours.is_empty(), inside.first(), inside.last()) else {
            return Ok(Finished { answer: None, count: deepest.count });
        };
        let (to_first, first_reading) = self.walk(*first, false);
        let (to_last, last_reading) = self.walk(*last, true);
        if let Some(refusal) = self.first_unsound(to_first.iter().chain(&to_last).copied()) {
            return Err(refusal);
        }
        let LowHigh { low, high } = deepest.inner.expect("a node inside has a reading");
        let first = first_reading.expect("every node of the walk is sound");
        let last = last_reading.expect("every node of the walk is sound");
        let count = deepest.count + to_first.len() as u64 + to_last.len() as u64;
        Ok(Finished { answer: Some(Found { first, last, low, high }), count })
    }
}

/// The table of a series, damaged.
fn damaged(random: &mut Random, readings: &[i32]) -> Made {
    let mut table = made(readings);
    damage(random, &mut table);
    if random.once_in(6) {
        // The same table of fewer hours.
        table.n = table.n.min(table.coefficients.len() as u64 / 2 + 1 + random.below(table.n));
    }
    table
}

/// A made table, damaged.
fn draw_damaged(random: &mut Random, most_hours: u64) -> Made {
    let n = draw_n(random, most_hours);
    let readings = draw_series(random, n);
    damaged(random, &readings)
}

#[test]
fn the_first_unsound_node_refuses_the_table() {
    let seed = 21;
    let mut random = Random::new(seed);
    let (mut taken, mut refused) = (0, 0);
    for _ in 0..200_000 {
        let table = draw_damaged(&mut random, 40);
        let input = format!("seed {seed}, {table:?}");
        let nodes = nodes_of(&table);
        let order = std::iter::once(0).chain(all_nodes(nodes.shape).iter().map(|node| node.number)).collect::<Vec<_>>();
        let mut hours = vec![77; table.n as usize];
        let given = turn_back(table.n, &table.coefficients, &table.codes, &mut hours);
        assert_eq!(given.err(), nodes.first_unsound(order), "{input}");
        if given.is_ok() {
            // Some series has this table, and it is the one turned back.
            let again = made(&hours);
            assert_eq!((&again.coefficients, &again.codes), (&table.coefficients, &table.codes), "{input}");
            taken += 1;
        } else {
            assert!(hours.iter().all(|&hour| hour == 77), "{input}");
            refused += 1;
        }
    }
    assert!(taken > 1_000 && refused > 10_000, "{taken} taken, {refused} refused");
}

#[test]
fn columns_of_damaged_tables() {
    let seed = 22;
    let mut random = Random::new(seed);
    let (mut answered, mut opened, mut walked) = (0, 0, 0);
    for _ in 0..150_000 {
        let table = draw_damaged(&mut random, 40);
        let (n, coefficients, codes) = (table.n, &table.coefficients, &table.codes);
        let nodes = nodes_of(&table);
        let column = draw_column(&mut random, n);
        let hours = edges(n, column).unwrap();
        let input = format!("seed {seed}, {table:?} {column:?}");

        let depth = random.below(nodes.shape.l + 1);
        let given = stopped(n, coefficients, codes, column, depth);
        assert_eq!(given, nodes.stopped(hours, depth), "{input} depth {depth}");
        let deepest = stopped(n, coefficients, codes, column, nodes.shape.l);
        assert_eq!(deepest, nodes.stopped(hours, nodes.shape.l), "{input}");
        let given = finished(n, coefficients, codes, column);
        assert_eq!(given, nodes.finished(hours), "{input}");

        let unsound = turn_back(n, coefficients, codes, &mut vec![0; n as usize]).is_err();
        answered += u64::from(unsound && given.is_ok_and(|finished| finished.answer.is_some()));
        opened += u64::from(deepest.is_err());
        walked += u64::from(deepest.is_ok() && given.is_err());
    }
    assert!(answered > 500 && opened > 500 && walked > 500, "{answered} answered, {opened} opened, {walked} walked");
}

/// A damaged table in whose series often whole days have no reading, the first ones or any.
fn draw_damaged_days(random: &mut Random) -> Made {
    let n = draw_n(random, 120);
    let mut readings = draw_series(random, n);
    let first = random.one_of(&[0, 0, 0, 24, 48, 72]).min(readings.len());
    readings[..first].fill(GAP);
    readings.chunks_mut(24).filter(|_| random.once_in(4)).for_each(|day| day.fill(GAP));
    damaged(random, &readings)
}

/// Document 02's sentences on a day: whose refusal it is, and the change from the latest reading before.
#[test]
fn days_of_damaged_tables() {
    let seed = 23;
    let mut random = Random::new(seed);
    let (mut changes, mut by_day, mut by_both, mut by_hours_before, mut unseen) = (0, 0, 0, 0, 0);
    for _ in 0..80_000 {
        let table = draw_damaged_days(&mut random);
        let nodes = nodes_of(&table);
        let day = random.below(table.n.div_ceil(24));
        let answer = |first, end| nodes.finished(Hours { first, end }).map(|finished| finished.answer);
        let (of_day, before) = (answer(24 * day, (24 * day + 24).min(table.n)), answer(0, 24 * day));
        let expected = match (of_day, before) {
            (Err(refusal), _) => Err(refusal),
            (Ok(None), _) => Ok(None),
            (Ok(Some(found)), _) if day == 0 => Ok(Some(found.last.grams - found.first.grams)),
            (Ok(Some(_)), Err(refusal)) => Err(refusal),
            (Ok(Some(found)), Ok(None)) => Ok(Some(found.last.grams - found.first.grams)),
            (Ok(Some(found)), Ok(Some(before))) => Ok(Some(found.last.grams - before.last.grams)),
        };
        let given = day_change(table.n, &table.coefficients, &table.codes, day);
        assert_eq!(given, expected, "seed {seed}, day {day} of {table:?}");
        changes += u64::from(given.is_ok_and(|change| change.is_some()));
        by_day += u64::from(of_day.is_err() && before.is_ok());
        by_both += u64::from(of_day.is_err() && before.is_err() && of_day.err() != before.err());
        by_hours_before += u64::from(of_day.is_ok() && given.is_err());
        unseen += u64::from(given == Ok(None) && before.is_err());
    }
    let drawn = [changes, by_day, by_both, by_hours_before, unseen];
    assert!(drawn.iter().all(|&days| days > 100), "{drawn:?}");
}
