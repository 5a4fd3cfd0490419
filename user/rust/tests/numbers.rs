//! Document 01's numbers for tables, records and columns, and buffers that are empty or longer than needed.

use sagivelume::{ask, open_record, read_record, write_record};
use sagivelume::{day_change, edges, finished, join, stopped, Column, Finished, LowHigh, Reading, Stopped, Summary};
use sagivelume::{level, make, rebuild, turn_back, Refusal, GAP};

fn refused<T>(number: u8, place: usize) -> Result<T, Refusal> {
    Err(Refusal { number, place })
}

/// The table of the printer's seven hours.
const SEVEN_COEFFICIENTS: [i32; 8] = [32_760, 41_350, 8_140, 8_560, 300, 450, 2_000_001, 2_000_001];
const SEVEN_CODES: [u8; 4] = [1, 3, 1, 4];

/// The first hour of a series, in one column.
const WHOLE_HOUR: Column = Column { a: 0, b: 1, w: 1, k: 0 };

/// The table of some readings has these coefficients and codes, and turned back gives the readings.
fn has_table(readings: &[i32], coefficients: &[i32], codes: &[u8]) {
    let n = readings.len();
    let (mut made, mut made_codes) = (vec![77; coefficients.len()], vec![77; codes.len()]);
    assert_eq!(make(n, readings, &mut made, &mut made_codes), Ok(()));
    assert_eq!((&made[..], &made_codes[..]), (coefficients, codes));
    let mut hours = vec![77; n];
    assert_eq!(turn_back(n, coefficients, codes, &mut hours), Ok(()));
    assert_eq!(hours, readings);
}

#[test]
fn the_numbers_to_hold_to() {
    has_table(&[500], &[500, 500], &[2]);
    has_table(&[7, 7], &[7, 7], &[0]);
    has_table(&[7, 9], &[7, 9], &[1]);
    has_table(&[9, 7], &[7, 9], &[0]);
    has_table(&[GAP; 3], &[GAP; 4], &[4, 4]);
    has_table(&[41_200, 41_350, GAP, 40_900, 32_760, 32_790, GAP], &SEVEN_COEFFICIENTS, &SEVEN_CODES);
    has_table(
        &[-1_000_000, -1_000_000, 1_000_000, 1_000_000],
        &[-1_000_000, 1_000_000, -2_000_000, -2_000_000],
        &[0, 0],
    );
}

#[test]
fn refusals_write_nothing() {
    let (mut coefficients, mut codes, mut hours) = ([71; 4], [72; 2], [73; 4]);
    assert_eq!(make(2, &[1_000_001, 0], &mut coefficients, &mut codes), refused(2, 0));
    assert_eq!(make(16_385, &[0; 16_385], &mut coefficients, &mut codes), refused(1, 0));
    assert_eq!(make(5, &[0; 5], &mut coefficients, &mut codes), refused(3, 0));
    assert_eq!((coefficients, codes), ([71; 4], [72; 2]));

    assert_eq!(turn_back(2, &[5, 4], &[0], &mut hours), refused(4, 0));
    assert_eq!(turn_back(2, &[5, 5], &[1], &mut hours), refused(4, 1));
    assert_eq!(turn_back(4, &[10, 20, -15, 0], &[0, 0], &mut hours), refused(4, 1));
    assert_eq!(turn_back(2, &[5, 5], &[], &mut hours), refused(3, 0));
    assert_eq!(hours, [73; 4]);
}

#[test]
fn longer_buffers_are_taken() {
    let (mut coefficients, mut codes, mut hours) = ([71; 4], [72; 2], [73; 4]);
    assert_eq!(make(1, &[500, i32::MAX], &mut coefficients, &mut codes), Ok(()));
    assert_eq!((coefficients, codes), ([500, 500, 71, 71], [2, 72]));
    assert_eq!(turn_back(1, &coefficients, &codes, &mut hours), Ok(()));
    assert_eq!(hours, [500, 73, 73, 73]);
}

#[test]
fn empty_buffers_are_lent_like_any_other() {
    for (n, number) in [(0, 1), (1, 3), (16_384, 3), (usize::MAX, 1)] {
        assert_eq!(make(n, &[], &mut [], &mut []), refused(number, 0));
        assert_eq!(turn_back(n, &[], &[], &mut []), refused(number, 0));
        assert_eq!(rebuild(n, &[], &[], 0, &mut []), refused(number, 0));
        assert_eq!(level(n, 0, &[]), []);
        assert_eq!(write_record(n, &[], &[], &mut []), refused(number, 0));
        assert_eq!(stopped(n, &[], &[], WHOLE_HOUR, 0), refused(number, 0));
        assert_eq!(finished(n, &[], &[], WHOLE_HOUR), refused(number, 0));
        assert_eq!(day_change(n, &[], &[], 0), refused(number, 0));
        assert_eq!(ask(&[], n, 0), refused(if n == 0 { 13 } else { 8 }, 0));
    }
    assert_eq!(read_record(&[], &mut [], &mut []), refused(8, 0));
    assert_eq!(open_record(&[]), refused(8, 0));
}

/// A log of these counts with its start, all hours recorded but those that come out as gaps, is rebuilt to these hours.
fn is_rebuilt(counts: &[u16], start: i32, expected: &[i32]) {
    let flags: Vec<u8> = expected.iter().map(|&held| u8::from(held != GAP)).collect();
    let mut hours = vec![77; counts.len()];
    assert_eq!(rebuild(counts.len(), counts, &flags, start, &mut hours), Ok(()));
    assert_eq!(hours, expected);
}

#[test]
fn logs_of_the_old_scales() {
    is_rebuilt(&[65_530, 4], 65_530, &[65_530, 65_540]);
    is_rebuilt(&[4, 65_530], 65_540, &[65_540, 65_530]);
    is_rebuilt(&[0, 32_768], 0, &[0, -32_768]);
    is_rebuilt(&[0, 32_767], 0, &[0, 32_767]);
    is_rebuilt(&[0, 32_768, 0], 0, &[0, GAP, 0]);
    is_rebuilt(&[65_535, 0], -1, &[-1, 0]);
    for start in [0, i32::MIN, i32::MAX] {
        is_rebuilt(&[1, 2], start, &[GAP, GAP]);
    }

    // What lies beyond n is not looked at, and stays.
    let mut hours = [77; 3];
    assert_eq!(rebuild(1, &[5, 6], &[1, 9, 9], 5, &mut hours), Ok(()));
    assert_eq!(hours, [5, 77, 77]);
}

#[test]
fn a_log_that_is_refused_is_not_rebuilt() {
    let mut hours = [77; 3];
    let counts = [16_960, 16_961, 16_960];
    assert_eq!(rebuild(3, &counts, &[1, 1, 1], 1_000_000, &mut hours), refused(2, 1));
    assert_eq!(rebuild(1, &[16_961], &[1], 1_000_001, &mut hours), refused(2, 0));
    assert_eq!(rebuild(3, &counts, &[1, 1, 1], 1_000_001, &mut hours), refused(15, 0));
    assert_eq!(rebuild(3, &counts, &[1, 1, 2], 1_000_001, &mut hours), refused(14, 2));
    assert_eq!(rebuild(3, &counts, &[1, 2], 1_000_001, &mut hours), refused(3, 0));
    assert_eq!(rebuild(0, &counts, &[2], 1_000_001, &mut hours), refused(1, 0));
    assert_eq!(hours, [77; 3]);
}

#[test]
fn a_level_is_a_part_of_the_lent_coefficients() {
    let coefficients = [0, 1, 2, 3, 4, 5, 6, 7, 8];
    assert!(std::ptr::eq(level(8, 1, &coefficients), &coefficients[4..8]));
    assert_eq!(level(8, 2, &coefficients), []);
    assert_eq!(level(9, 0, &coefficients), []);
    assert_eq!(level(2, 0, &coefficients), []);
    assert_eq!(level(8, usize::MAX, &coefficients), []);
}

/// The printer's seven hours, n = 7 and P = 8, as a record.
#[rustfmt::skip]
const SEVEN_HOURS: [u8; 35] = [
    0, 0, 0, 31, 1, 0, 7,
    0, 127, 248, 0, 161, 134, 0, 31, 204, 0, 33, 112, 0, 1, 44, 0, 1, 194, 30, 132, 129, 30, 132, 129,
    1, 3, 1, 4,
];

#[test]
fn a_record_byte_by_byte() {
    let table = SEVEN_COEFFICIENTS;
    let mut bytes = [77; 36];
    assert_eq!(write_record(7, &table, &SEVEN_CODES, &mut bytes), Ok(35));
    assert_eq!((&bytes[..35], bytes[35]), (&SEVEN_HOURS[..], 77));

    let (mut coefficients, mut codes) = ([71; 9], [72; 5]);
    assert_eq!(read_record(&SEVEN_HOURS, &mut coefficients, &mut codes), Ok(7));
    assert_eq!((&coefficients[..8], coefficients[8]), (&table[..], 71));
    assert_eq!(codes, [1, 3, 1, 4, 72]);

    let record = open_record(&SEVEN_HOURS).expect("taken");
    assert_eq!((record.hours(), record.places()), (7, 8));
    for (place, coefficient) in table.into_iter().enumerate() {
        assert_eq!(record.coefficient(place), Ok(coefficient));
    }
    assert_eq!(record.coefficient(8), refused(13, 0));
    assert_eq!(record.coefficient(usize::MAX), refused(13, 0));
}

#[test]
fn negative_coefficients_keep_their_sign() {
    let mut bytes = [77; 21];
    let table = [-1_000_000, 1_000_000, -2_000_000, -2_000_000];
    assert_eq!(write_record(4, &table, &[0, 0], &mut bytes), Ok(21));
    #[rustfmt::skip]
    assert_eq!(bytes, [
        0, 0, 0, 17, 1, 0, 4, 240, 189, 192, 15, 66, 64, 225, 123, 128, 225, 123, 128, 0, 0,
    ]);
    let (mut coefficients, mut codes) = ([71; 4], [72; 2]);
    assert_eq!(read_record(&bytes, &mut coefficients, &mut codes), Ok(4));
    assert_eq!((coefficients, codes), (table, [0, 0]));

    let most_and_least = [0, 0, 0, 0, 0, 0, 0, 127, 255, 255, 128, 0, 0];
    assert_eq!(ask(&most_and_least, 2, 0), Ok(8_388_607));
    assert_eq!(ask(&most_and_least, 2, 1), Ok(-8_388_608));
}

#[test]
fn sizes_of_records() {
    for (n, p, length_field, whole) in [(1, 2, 10, 14), (2, 2, 10, 14), (16_384, 16_384, 57_347, 57_351)] {
        let (coefficients, codes) = (vec![GAP; p], vec![4; p / 2]);
        let mut bytes = vec![77; whole];
        assert_eq!(write_record(n, &coefficients, &codes, &mut bytes[..whole - 1]), refused(3, 0));
        assert_eq!(bytes, vec![77; whole]);
        assert_eq!(write_record(n, &coefficients, &codes, &mut bytes), Ok(whole));
        assert_eq!(bytes[..4], u32::to_be_bytes(length_field));

        let (mut read, mut read_codes) = (vec![71; p], vec![72; p / 2]);
        assert_eq!(read_record(&bytes, &mut read, &mut read_codes), Ok(n));
        assert_eq!((read, read_codes), (coefficients, codes));
        let record = open_record(&bytes).expect("taken");
        assert_eq!((record.hours(), record.places()), (n, p));
        assert_eq!(record.coefficient(p - 1), Ok(GAP));
        assert_eq!(record.coefficient(p), refused(13, 0));
    }
}

#[test]
fn refused_records_write_nothing() {
    let mut bytes = [77; 35];
    assert_eq!(write_record(16_385, &[0; 8], &[0; 4], &mut bytes), refused(1, 0));
    assert_eq!(write_record(9, &[0; 8], &[0; 4], &mut bytes), refused(3, 0));
    assert_eq!(write_record(2, &[5, 4], &[0], &mut bytes), refused(4, 0));
    assert_eq!(write_record(2, &[5, 5], &[1], &mut bytes), refused(4, 1));
    assert_eq!(write_record(4, &[10, 20, -15, 0], &[0, 0], &mut bytes), refused(4, 1));
    assert_eq!(bytes, [77; 35]);

    let (mut coefficients, mut codes) = ([71; 8], [72; 4]);
    let mut read = |bytes: &[u8]| {
        let refused = read_record(bytes, &mut coefficients, &mut codes);
        assert_eq!((coefficients, codes), ([71; 8], [72; 4]));
        refused
    };
    let changed = |place: usize, byte: u8| {
        let mut bytes = SEVEN_HOURS;
        bytes[place] = byte;
        bytes
    };
    assert_eq!(read(&SEVEN_HOURS[..6]), refused(8, 0));
    assert_eq!(read(&changed(4, 2)), refused(9, 0));
    assert_eq!(read(&changed(6, 0)), refused(1, 0));
    assert_eq!(read(&changed(6, 9)), refused(10, 0));
    assert_eq!(read(&SEVEN_HOURS[..34]), refused(8, 0));
    assert_eq!(read(&[SEVEN_HOURS.as_slice(), &[0]].concat()), refused(11, 0));
    assert_eq!(read(&changed(7, 127)), refused(4, 0));
    assert_eq!(read(&changed(13, 127)), refused(4, 1));
    assert_eq!(read(&changed(34, 0)), refused(4, 7));
    assert_eq!(read_record(&SEVEN_HOURS, &mut coefficients[..7], &mut codes), refused(3, 0));
    assert_eq!(read_record(&SEVEN_HOURS, &mut coefficients, &mut codes[..3]), refused(3, 0));
    assert_eq!((coefficients, codes), ([71; 8], [72; 4]));
}

/// The table of some readings.
fn table_of(readings: &[i32]) -> (Vec<i32>, Vec<u8>) {
    let p = readings.len().next_power_of_two().max(2);
    let (mut coefficients, mut codes) = (vec![0; p], vec![0; p / 2]);
    assert_eq!(make(readings.len(), readings, &mut coefficients, &mut codes), Ok(()));
    (coefficients, codes)
}

/// A reading of an hour.
fn at(hour: usize, grams: i32) -> Reading {
    Reading { hour, grams }
}

/// Column k of the printer's seven hours in three columns.
fn third(k: usize) -> Column {
    Column { a: 0, b: 7, w: 3, k }
}

#[test]
fn the_printers_three_columns() {
    let summaries = [
        Summary { first: at(0, 41_200), last: at(1, 41_350), low: 41_200, high: 41_350 },
        Summary { first: at(3, 40_900), last: at(4, 32_760), low: 32_760, high: 40_900 },
        Summary { first: at(5, 32_790), last: at(5, 32_790), low: 32_790, high: 32_790 },
    ];
    for (k, (summary, count)) in summaries.into_iter().zip([9, 4 * 3 - 1, 7]).enumerate() {
        let answered = finished(7, &SEVEN_COEFFICIENTS, &SEVEN_CODES, third(k));
        assert_eq!(answered, Ok(Finished { answer: Some(summary), count }));
    }
    let [left, middle, right] = summaries.map(Some);
    let whole = finished(7, &SEVEN_COEFFICIENTS, &SEVEN_CODES, Column { w: 1, ..third(0) }).expect("taken");
    assert_eq!(join(join(left, middle), right), whole.answer);
}

#[test]
fn a_column_at_each_depth() {
    let range = |low, high| Some(LowHigh { low, high });
    let (narrow, wide) = (range(41_200, 41_350), range(40_900, 41_350));
    let at_depths = [
        Stopped { outer: range(32_760, 41_350), inner: None, count: 1 },
        Stopped { outer: wide, inner: None, count: 3 },
        Stopped { outer: wide, inner: narrow, count: 5 },
        Stopped { outer: narrow, inner: narrow, count: 7 },
    ];
    for (d, answer) in at_depths.into_iter().enumerate() {
        assert_eq!(stopped(7, &SEVEN_COEFFICIENTS, &SEVEN_CODES, third(0), d), Ok(answer));
    }
    assert_eq!(stopped(7, &SEVEN_COEFFICIENTS, &SEVEN_CODES, third(0), 4), refused(7, 0));
}

#[test]
fn columns_without_an_hour() {
    let fourth = |k| Column { a: 0, b: 2, w: 4, k };
    for (k, hours) in [0..1, 1..1, 1..2, 2..2].into_iter().enumerate() {
        assert_eq!(edges(2, fourth(k)), Ok(hours));
    }
    // The table is not examined: it is unsound at its root values.
    for k in [1, 3] {
        let nothing = Stopped { outer: None, inner: None, count: 0 };
        assert_eq!(stopped(2, &[5, 4], &[9], fourth(k), 1), Ok(nothing));
        assert_eq!(finished(2, &[5, 4], &[9], fourth(k)), Ok(Finished { answer: None, count: 0 }));
    }
    assert_eq!(finished(2, &[5, 4], &[9], fourth(0)), refused(4, 0));
}

#[test]
fn the_greatest_n_w_and_d() {
    let most_columns = |w, k| Column { a: 0, b: 16_384, w, k };
    assert_eq!(edges(16_384, most_columns(4_096, 4_095)), Ok(16_380..16_384));
    assert_eq!(edges(16_384, most_columns(4_096, 4_096)), refused(6, 0));
    assert_eq!(edges(16_384, most_columns(4_097, 0)), refused(6, 0));
    assert_eq!(edges(16_385, most_columns(4_096, 0)), refused(1, 0));
    assert_eq!(edges(16_383, most_columns(4_096, 0)), refused(5, 0));

    for l in 1..=14 {
        let n = 1 << l;
        let (coefficients, codes) = table_of(&vec![7; n]);
        let at_depth = |d| stopped(n, &coefficients, &codes, Column { a: 0, b: n, w: 1, k: 0 }, d);
        assert!(at_depth(l).is_ok());
        assert_eq!(at_depth(l + 1), refused(7, 0));
        assert_eq!(at_depth(usize::MAX), refused(7, 0));
    }
}

#[test]
fn day_changes() {
    let mut readings: Vec<i32> = (0..24).map(|hour| 40_000 + hour * 600 / 23).collect();
    readings.extend([41_000, 41_100]);
    let (coefficients, codes) = table_of(&readings);
    let change = |day| day_change(26, &coefficients, &codes, day);
    assert_eq!([change(0), change(1)], [Ok(Some(600)), Ok(Some(500))]);
    assert_eq!([change(2), change(1 << 63), change(usize::MAX)], [refused(5, 0); 3]);

    let (coefficients, codes) = table_of(&[&[GAP; 24][..], &[7]].concat());
    assert_eq!(day_change(25, &coefficients, &codes, 0), Ok(None));
    assert_eq!(day_change(25, &coefficients, &codes, 1), Ok(Some(0)));
}

#[test]
fn unsound_nodes_in_the_order_examined() {
    let column = |b| Column { a: 0, b, w: 1, k: 0 };
    let (coefficients, mut codes) = table_of(&[1, 2, 3, 4, 5, 6, 7, 8]);
    codes[0] = 9;
    codes[3] = 9;
    assert_eq!(finished(8, &coefficients, &codes, column(7)), refused(4, 7));
    assert_eq!(finished(8, &coefficients, &codes, column(8)), refused(4, 4));
    assert!(stopped(8, &coefficients, &codes, column(8), 3).is_ok());

    let between_the_walks = finished(8, &coefficients, &[1, 9, 9, 1], column(8)).expect("taken");
    assert_eq!(between_the_walks.count, 7);
}
