//! Document 01's numbers to hold to, one by one, 12 as document 02 has it, and the printer's example byte for byte.

mod common;

use common::{column, made, range, refusal, SEVEN_HOURS};
use second::hours::GAP;
use second::{
    day_change, edges, finished, make, print, stopped, turn_back, Finished, Found, Hours, LowHigh, Reading, Stopped,
};

const EXAMPLE_INPUT: &str = "0 7 3\n41200\n41350\n-\n40900\n32760\n32790\n-";
const EXAMPLE_OUTPUT: &str = "\
column first last low high nodes
0 41200 41350 41200 41350 9
1 40900 32760 32760 40900 11
2 32790 32790 32790 32790 7
";

fn assert_table(readings: &[i32], coefficients: &[i32], codes: &[u8]) {
    let table = made(readings);
    assert_eq!(table.coefficients, coefficients, "{readings:?}");
    assert_eq!(table.codes, codes, "{readings:?}");
    let mut hours = vec![0; readings.len()];
    assert_eq!(turn_back(table.n, coefficients, codes, &mut hours), Ok(()), "{readings:?}");
    assert_eq!(hours, readings);
}

fn found(first: (u64, i32), last: (u64, i32), low: i32, high: i32) -> Option<Found> {
    let reading = |(hour, grams)| Reading { hour, grams };
    Some(Found { first: reading(first), last: reading(last), low, high })
}

#[test]
fn number_1_one_hour() {
    assert_table(&[500], &[500, 500], &[2]);
}

#[test]
fn number_2_codes_of_pairs() {
    assert_table(&[7, 7], &[7, 7], &[0]);
    assert_table(&[7, 9], &[7, 9], &[1]);
    assert_table(&[9, 7], &[7, 9], &[0]);
}

#[test]
fn number_3_three_gaps() {
    assert_table(&[GAP; 3], &[2_000_003; 4], &[4, 4]);
}

#[test]
fn number_4_the_seven_hours() {
    assert_table(&SEVEN_HOURS, &[32760, 41350, 8140, 8560, 300, 450, 2_000_001, 2_000_001], &[1, 3, 1, 4]);
}

#[test]
fn number_5_three_columns() {
    let table = made(&SEVEN_HOURS);
    let answers = [
        Finished { answer: found((0, 41200), (1, 41350), 41200, 41350), count: 9 },
        Finished { answer: found((3, 40900), (4, 32760), 32760, 40900), count: 11 },
        Finished { answer: found((5, 32790), (5, 32790), 32790, 32790), count: 7 },
    ];
    for (k, answer) in (0..).zip(answers) {
        assert_eq!(finished(7, &table.coefficients, &table.codes, column(0, 7, 3, k)), Ok(answer), "column {k}");
    }
    assert_eq!(answers[1].count, 4 * 3 - 1);
}

#[test]
fn number_6_column_0_at_each_depth() {
    let table = made(&SEVEN_HOURS);
    let answers = [
        Stopped { outer: range(32760, 41350), inner: None, count: 1 },
        Stopped { outer: range(40900, 41350), inner: None, count: 3 },
        Stopped { outer: range(40900, 41350), inner: range(41200, 41350), count: 5 },
        Stopped { outer: range(41200, 41350), inner: range(41200, 41350), count: 7 },
    ];
    for (depth, answer) in (0..).zip(answers) {
        let given = stopped(7, &table.coefficients, &table.codes, column(0, 7, 3, 0), depth);
        assert_eq!(given, Ok(answer), "depth {depth}");
    }
}

#[test]
fn number_7_greatest_details() {
    let readings = [-1_000_000, -1_000_000, 1_000_000, 1_000_000];
    assert_table(&readings, &[-1_000_000, 1_000_000, -2_000_000, -2_000_000], &[0, 0]);
}

#[test]
fn number_8_two_hours_in_four_columns() {
    let given: Vec<bool> = (0..4).map(|k| edges(2, column(0, 2, 4, k)).unwrap().is_empty()).collect();
    assert_eq!(given, [false, true, false, true]);
}

#[test]
fn number_9_unsound_tables_of_two_hours() {
    for code in [0, 1, 2, 3, 4, 5] {
        assert_eq!(turn_back(2, &[5, 4], &[code], &mut [0; 2]), Err(refusal(4, 0)), "code {code}");
    }
    assert_eq!(turn_back(2, &[5, 5], &[1], &mut [0; 2]), Err(refusal(4, 1)));
}

#[test]
fn number_10_unsound_table_of_four_hours() {
    for codes in [[0, 0], [1, 1], [4, 4], [9, 9]] {
        assert_eq!(turn_back(4, &[10, 20, -15, 0], &codes, &mut [0; 4]), Err(refusal(4, 1)), "codes {codes:?}");
    }
}

#[test]
fn number_11_bounds() {
    assert_eq!(make(1, &[1_000_001], &mut [0; 2], &mut [0]), Err(refusal(2, 0)));
    assert_eq!(make(16_385, &[0; 16_385], &mut [0; 32_768], &mut [0; 16_384]), Err(refusal(1, 0)));
    let table = made(&SEVEN_HOURS);
    let at_depth = |depth| stopped(7, &table.coefficients, &table.codes, column(0, 7, 1, 0), depth);
    assert_eq!(at_depth(3).map(|answer| answer.outer), Ok(range(32760, 41350)));
    assert_eq!(at_depth(4), Err(refusal(7, 0)));
    assert_eq!(edges(7, column(0, 7, 4_096, 0)), Ok(Hours { first: 0, end: 1 }));
    assert_eq!(edges(7, column(0, 7, 4_097, 0)), Err(refusal(6, 0)));
}

#[test]
fn number_12_day_changes() {
    let mut readings = vec![GAP; 48];
    (readings[2], readings[9], readings[22]) = (40000, 39000, 40600);
    (readings[24], readings[47]) = (41000, 41100);
    let table = made(&readings);
    assert_eq!(day_change(48, &table.coefficients, &table.codes, 0), Ok(Some(600)));
    assert_eq!(day_change(48, &table.coefficients, &table.codes, 1), Ok(Some(500)));

    let cut = made(&[&[40000; 23][..], &[40600, 41000, 41100]].concat());
    assert_eq!(day_change(26, &cut.coefficients, &cut.codes, 0), Ok(Some(600)));
    assert_eq!(day_change(26, &cut.coefficients, &cut.codes, 1), Ok(Some(500)));
}

#[test]
fn the_printers_example() {
    for input in [EXAMPLE_INPUT.to_string(), format!("{EXAMPLE_INPUT}\n")] {
        assert_eq!(String::from_utf8(print(input.as_bytes())).unwrap(), EXAMPLE_OUTPUT);
    }
    assert_eq!(second::printer::EXAMPLE, format!("{EXAMPLE_INPUT}\n"));
}

#[test]
fn outside_examples() {
    assert_table(&[7, 8, 10, 6], &[6, 10, 1, -2], &[1, 0]);
    assert_table(&[4, -3, 0, 1], &[-3, 4, -3, 3], &[0, 1]);
    let given: Vec<Hours> = (0..3).map(|k| edges(64, column(0, 64, 3, k)).unwrap()).collect();
    assert_eq!(given, [(0, 22), (22, 43), (43, 64)].map(|(first, end)| Hours { first, end }));
}

#[test]
fn no_grams_are_readings() {
    assert_table(&[0, GAP, -1, 0], &[-1, 0, 1, 0], &[2, 1]);
    assert_eq!(LowHigh::of(&[GAP, 0, -1]), range(-1, 0));
}
