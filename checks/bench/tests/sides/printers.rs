//! The printers.

use std::collections::BTreeMap;

use bench::words::{GAP, GREATEST_READING};
use bench::{fast, plain};
use second::printer::hour_lines;
use second::random::Random;
use second::vectors::printer::{inputs, outcome};

/// The outcome for an input, for which all print the same.
fn same(input: &[u8]) -> String {
    let by_second = second::print(input);
    assert!(plain::print(input).as_bytes() == by_second, "\"{}\"", input.escape_ascii());
    assert!(fast::print(input.to_vec()) == by_second, "\"{}\"", input.escape_ascii());
    outcome(&by_second)
}

#[test]
fn the_inputs_of_the_vectors() {
    let mut outcomes = BTreeMap::new();
    for input in inputs() {
        *outcomes.entry(same(&input)).or_insert(0) += 1;
    }
    let each: Vec<&str> = outcomes.keys().map(String::as_str).collect();
    assert_eq!(each, ["refused 1", "refused 12", "refused 2", "refused 5", "refused 6", "taken"]);
}

#[test]
fn drawn_texts_with_damages() {
    let mut random = Random::new(9);
    let (mut taken, mut bad) = (0, 0);
    for round in 0..6_000 {
        let n = 1 + random.below(80);
        let (a, b) = (random.below(n), 1 + random.below(n + 1));
        let greatest = random.one_of(&[9, 60_000, GREATEST_READING, 2_000_003, 9_999_999]);
        let held = |random: &mut Random| match random.below(5) {
            0 => GAP,
            _ => random.between(-greatest, greatest),
        };
        let hours: Vec<i32> = (0..n).map(|_| held(&mut random)).collect();
        let mut input = format!("{a} {b} {}\n{}", random.below(20), hour_lines(&hours)).into_bytes();
        for _ in 0..round % 3 {
            let place = random.below(input.len() as u64) as usize;
            input[place] = random.one_of(b"0123456789- \n\r\0/:\xb0\xff");
        }
        if round % 7 == 0 {
            input.truncate(random.below(input.len() as u64) as usize);
        }
        let outcome = same(&input);
        taken += usize::from(outcome == "taken");
        bad += usize::from(outcome == "refused 12");
    }
    assert!(taken > 300 && bad > 300, "{taken} {bad}");
}

#[test]
fn every_line_of_three_bytes() {
    let bytes = b"059- \n/:\r\0\x80\xff";
    for line in bytes.iter().flat_map(|&x| bytes.iter().flat_map(move |&y| bytes.map(|z| [x, y, z]))) {
        same(&[b"0 1 1\n", &line[..], b"\n7\n"].concat());
    }
}

#[test]
fn the_season() {
    for window in ["0 2400 100", "7 2399 4096", "636 638 1", "0 2401 5"] {
        same(format!("{window}\n{}", second::season::log()).as_bytes());
    }
    for hours in [16_383, 16_384, 16_385, 20_000] {
        same(format!("0 16383 9\n{}", "12\n".repeat(hours)).as_bytes());
        same(format!("0 16383 9\n{}x", "-\n".repeat(hours)).as_bytes());
    }
}
