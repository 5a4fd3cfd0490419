//! Making, turning back and writing a record.

use std::collections::BTreeSet;

use crate::common::{damage, draw_series, mark, places, record_size, refusal, table_of, MAKE, TURN_BACK, WRITE_RECORD};
use bench::words::{GAP, GREATEST_READING, ONLY_LEFT, ONLY_RIGHT};
use second::random::Random;

/// The number of the refusal, `None` if the second program takes it; each side has to do the same, with the same
/// buffers after it.
fn compare_make(n: usize, readings: &[i32], coefficients: &[i32], codes: &[u8]) -> Option<u8> {
    let mut expected = (coefficients.to_vec(), codes.to_vec());
    let by_second = second::make(n as u64, readings, &mut expected.0, &mut expected.1).map_err(refusal);
    for make in MAKE {
        let mut written = (coefficients.to_vec(), codes.to_vec());
        assert_eq!(make(n, readings, &mut written.0, &mut written.1), by_second, "{n} {readings:?}");
        assert_eq!(written, expected, "{n} {readings:?}");
    }
    by_second.err().map(|refusal| refusal.number)
}

/// The same for turning back.
fn compare_turn_back(n: usize, coefficients: &[i32], codes: &[u8], hours: &[i32]) -> Option<u8> {
    let mut expected = hours.to_vec();
    let by_second = second::turn_back(n as u64, coefficients, codes, &mut expected).map_err(refusal);
    for turn_back in TURN_BACK {
        let mut written = hours.to_vec();
        let turned = turn_back(n, coefficients, codes, &mut written);
        assert_eq!(turned, by_second, "{n} {coefficients:?} {codes:?}");
        assert_eq!(written, expected, "{n} {coefficients:?} {codes:?}");
    }
    by_second.err().map(|refusal| refusal.number)
}

/// The same for writing a record.
fn compare_write_record(n: usize, coefficients: &[i32], codes: &[u8], record: &[u8]) -> Option<u8> {
    let mut expected = record.to_vec();
    let by_second = second::write_record(n as u64, coefficients, codes, &mut expected);
    let by_second = by_second.map(|bytes| bytes as usize).map_err(refusal);
    for write_record in WRITE_RECORD {
        let mut written = record.to_vec();
        let told = write_record(n, coefficients, codes, &mut written);
        assert_eq!(told, by_second, "{n} {coefficients:?} {codes:?}");
        assert_eq!(written, expected, "{n} {coefficients:?} {codes:?}");
    }
    by_second.err().map(|refusal| refusal.number)
}

/// Makes a series with one reading too large in each place that was drawn, least and greatest among them.
fn compare_bad_readings(random: &mut Random, readings: &[i32]) {
    let n = readings.len();
    let (coefficients, codes) = (vec![-7; places(n)], vec![77; places(n) / 2]);
    let mut bad = readings.to_vec();
    for hour in [random.below(n as u64) as usize, n - 1, 0] {
        let too_large = GREATEST_READING + 1;
        bad[hour] = random.one_of(&[too_large, -too_large, ONLY_LEFT, ONLY_RIGHT, GAP + 1, i32::MIN, i32::MAX]);
        assert_eq!(compare_make(n, &bad, &coefficients, &codes), Some(2));
    }
}

/// Turns a table back and writes it, with room for more; the number of the refusal.
fn compare_table(n: usize, coefficients: &[i32], codes: &[u8]) -> Option<u8> {
    let turned_back = compare_turn_back(n, coefficients, codes, &vec![-7; n + 1]);
    let written = compare_write_record(n, coefficients, codes, &vec![77; record_size(coefficients.len()) + 1]);
    assert_eq!(turned_back, written);
    turned_back
}

/// Series of n hours, made and turned back, and their tables damaged once or twice.
fn compare_series(random: &mut Random, n: usize, outcomes: &mut BTreeSet<Option<u8>>) {
    let p = places(n);
    let readings = draw_series(random, n);
    assert_eq!(compare_make(n, &readings, &vec![-7; p + 1], &vec![77; p / 2 + 1]), None);
    let (coefficients, codes) = table_of(&readings);
    assert_eq!(compare_table(n, &coefficients, &codes), None);
    compare_bad_readings(random, &readings);

    let (mut damaged, mut damaged_codes) = (coefficients.clone(), codes.clone());
    damage(random, &mut damaged, &mut damaged_codes);
    outcomes.insert(compare_table(n, &damaged, &damaged_codes));
    damage(random, &mut damaged, &mut damaged_codes);
    outcomes.insert(compare_table(n, &damaged, &damaged_codes));
    let mut marked = coefficients;
    mark(random, &mut marked);
    outcomes.insert(compare_table(n, &marked, &codes));
}

#[test]
fn drawn_series_and_damaged_tables() {
    let mut random = Random::new(8);
    let mut outcomes = BTreeSet::new();
    for _ in 0..20_000 {
        let n = 1 + random.below(40) as usize;
        compare_series(&mut random, n, &mut outcomes);
    }
    assert!(outcomes.into_iter().eq([None, Some(4)]));
}

#[test]
fn every_length_up_to_seventy() {
    let mut random = Random::new(70);
    let mut outcomes = BTreeSet::new();
    for n in 1..=70 {
        for _ in 0..60 {
            compare_series(&mut random, n, &mut outcomes);
        }
    }
    assert!(outcomes.into_iter().eq([None, Some(4)]));
}

#[test]
fn long_series() {
    let mut random = Random::new(16);
    let mut outcomes = BTreeSet::new();
    for n in [127, 128, 129, 1_000, 2_048, 4_097, 9_999, 16_383, 16_384] {
        compare_series(&mut random, n, &mut outcomes);
    }
}

#[test]
fn n_and_lengths() {
    let mut seen = BTreeSet::new();
    for n in [0, 1, 2, 3, 4, 5, 16, 17, 16_383, 16_384, 16_385, usize::MAX] {
        let hours = if n > 16_385 { 3 } else { n };
        let p = hours.next_power_of_two().max(2);
        let lengths = [(0, 0, 0), (1, 0, 0), (0, 1, 0), (0, 0, 1)];
        for (readings, coefficients, codes) in lengths {
            let readings = hours.saturating_sub(readings);
            let (coefficients, codes) = (p - coefficients, p / 2 - codes);
            seen.insert(compare_make(n, &vec![5; readings], &vec![-7; coefficients], &vec![77; codes]));
            let (coefficients, codes) = (vec![GAP; coefficients], vec![4; codes]);
            seen.insert(compare_turn_back(n, &coefficients, &codes, &vec![-7; readings]));
            for bytes in [0, record_size(p) - 1, record_size(p)] {
                seen.insert(compare_write_record(n, &coefficients, &codes, &vec![77; bytes]));
            }
        }
    }
    assert!(seen.into_iter().eq([None, Some(1), Some(3)]));
}
