//! Places where document 01 leaves room, with the examples that show how it is read.

mod common;

use common::{column, made, range, refusal, Made, SEVEN_HOURS};
use second::hours::GAP;
use second::{
    ask, ask_view, day_change, edges, finished, level, make, open, print, read_record, stopped, turn_back,
    write_record, Finished, Found, Reading, Stopped, Stretch,
};

fn turned_back(table: &Made) -> Result<Vec<i32>, second::Refusal> {
    let mut hours = vec![0; table.n as usize];
    turn_back(table.n, &table.coefficients, &table.codes, &mut hours).map(|()| hours)
}

/// A table with another n but the same P.
fn with_n(n: u64, table: Made) -> Made {
    Made { n, ..table }
}

#[test]
fn hours_from_n_on_are_looked_at_in_pairs_alone() {
    let mut sixteen = vec![GAP; 16];
    (sixteen[0], sixteen[12]) = (3, 5);
    assert_eq!(turned_back(&with_n(9, made(&sixteen))), Err(refusal(4, 14)));
    sixteen[13] = 7;
    assert_eq!(turned_back(&with_n(9, made(&sixteen))), Err(refusal(4, 14)));

    // In the last pair of an odd n only codes 2 and 4 can be sound: 2 with a reading, 4 without.
    for code in 0..=5 {
        let turned = |n, coefficients: &[i32], codes: &[u8]| turn_back(n, coefficients, codes, &mut [0; 3]);
        let expected = |sound, pair| if sound { Ok(()) } else { Err(refusal(4, pair)) };
        assert_eq!(turned(1, &[6, 6], &[code]), expected(code == 2, 1), "code {code}");
        assert_eq!(turned(1, &[GAP, GAP], &[code]), expected(code == 4, 1), "code {code}");
        assert_eq!(turned(1, &[6, 7], &[code]), expected(false, 1), "code {code}");
        assert_eq!(turned(3, &[6, 6, 0, 0], &[0, code]), expected(code == 2, 3), "code {code}");
        assert_eq!(turned(3, &[6, 6, 2_000_001, 2_000_001], &[0, code]), expected(code == 4, 3), "code {code}");
    }
}

#[test]
fn the_smallest_table_is_one_pair() {
    let mut coefficients = [0; 2];
    let mut codes = [9; 1];
    assert_eq!(make(1, &[5], &mut coefficients, &mut codes), Ok(()));
    assert_eq!((coefficients, codes), ([5, 5], [2]));
    for j in [0, 1, 2, u64::MAX] {
        assert_eq!(level(1, j, &coefficients), Stretch { start: 0, length: 0 });
        assert_eq!(level(2, j, &coefficients), Stretch { start: 0, length: 0 });
    }
    assert_eq!(turn_back(2, &[5, 4], &[77], &mut [0; 2]), Err(refusal(4, 0)));

    // For n = 1 the window [0, 1) is not the whole of node 1, which is opened.
    let five = Reading { hour: 0, grams: 5 };
    let answer = Finished { answer: Some(Found { first: five, last: five, low: 5, high: 5 }), count: 3 };
    assert_eq!(finished(1, &coefficients, &codes, column(0, 1, 1, 0)), Ok(answer));
    let stopped_at = |depth| stopped(1, &coefficients, &codes, column(0, 1, 1, 0), depth);
    assert_eq!(stopped_at(0), Ok(Stopped { outer: range(5, 5), inner: None, count: 1 }));
    assert_eq!(stopped_at(1), Ok(Stopped { outer: range(5, 5), inner: range(5, 5), count: 3 }));
}

#[test]
fn refusal_4_follows_the_order_of_examination() {
    let mut table = made(&[1, 2, 3, 4, 5, 6, 7, 8]);
    table.codes = vec![9, 1, 1, 9];
    // The opened pair 7 comes before the walk to the first, which would meet pair 4.
    assert_eq!(finished(8, &table.coefficients, &table.codes, column(0, 7, 1, 0)), Err(refusal(4, 7)));
    // Where no node is opened the walk to the first comes before the walk to the last.
    assert_eq!(finished(8, &table.coefficients, &table.codes, column(0, 8, 1, 0)), Err(refusal(4, 4)));
    table.codes = vec![1, 1, 1, 9];
    assert_eq!(finished(8, &table.coefficients, &table.codes, column(0, 8, 1, 0)), Err(refusal(4, 7)));
}

#[test]
fn nodes_between_the_walks_are_not_examined() {
    let mut table = made(&[1, 2, 3, 4, 5, 6, 7, 8]);
    table.codes = vec![1, 9, 9, 1];
    let found = Found { first: Reading { hour: 0, grams: 1 }, last: Reading { hour: 7, grams: 8 }, low: 1, high: 8 };
    let answer = Finished { answer: Some(found), count: 7 };
    assert_eq!(finished(8, &table.coefficients, &table.codes, column(0, 8, 1, 0)), Ok(answer));
    assert_eq!(turned_back(&table), Err(refusal(4, 5)));
}

#[test]
fn below_an_empty_root_nothing_is_examined() {
    let coefficients = [GAP, GAP, 1, i32::MIN, 77, 88, 2_000_001, i32::MAX];
    let codes = [9, 8, 7, 6];
    for a in 0..8 {
        for b in a + 1..=8 {
            let whole = column(a, b, 1, 0);
            let nothing = Finished { answer: None, count: 1 };
            assert_eq!(finished(8, &coefficients, &codes, whole), Ok(nothing), "{whole:?}");
            for depth in 0..=3 {
                let nothing = Stopped { outer: None, inner: None, count: 1 };
                assert_eq!(stopped(8, &coefficients, &codes, whole, depth), Ok(nothing), "{whole:?} at {depth}");
            }
        }
    }
    assert_eq!(day_change(8, &coefficients, &codes, 0), Ok(None));
}

#[test]
fn a_column_without_an_hour_passes_every_check_but_4() {
    let unsound = [5, 4];
    let empty = column(0, 2, 4, 1);
    assert_eq!(finished(2, &unsound, &[9], empty), Ok(Finished { answer: None, count: 0 }));
    assert_eq!(stopped(2, &unsound, &[9], empty, 1), Ok(Stopped { outer: None, inner: None, count: 0 }));
    assert_eq!(finished(2, &unsound, &[9], column(0, 2, 4, 0)), Err(refusal(4, 0)));
    assert_eq!(stopped(2, &unsound, &[9], column(0, 2, 4, 0), 0), Err(refusal(4, 0)));
    assert_eq!(finished(2, &unsound[..1], &[9], empty), Err(refusal(3, 0)));
    assert_eq!(finished(2, &unsound, &[], empty), Err(refusal(3, 0)));
    assert_eq!(stopped(2, &unsound, &[9], empty, 2), Err(refusal(7, 0)));
}

#[test]
fn depth_0_examines_node_0_alone() {
    let rubbish = [-4, 9, 3_000_000, 1, 1, 1, 1, 1];
    for (a, b) in [(0, 8), (0, 1), (7, 8), (2, 5)] {
        let inner = if (a, b) == (0, 8) { range(-4, 9) } else { None };
        let answer = Stopped { outer: range(-4, 9), inner, count: 1 };
        assert_eq!(stopped(8, &rubbish, &[9; 4], column(a, b, 1, 0), 0), Ok(answer), "[{a}, {b})");
    }
    assert_eq!(stopped(8, &[9, -4, 0, 0, 0, 0, 0, 0], &[9; 4], column(0, 8, 1, 0), 0), Err(refusal(4, 0)));
}

#[test]
fn codes_are_needed_also_where_none_is_read() {
    let table = made(&SEVEN_HOURS);
    assert_eq!(stopped(7, &table.coefficients, &table.codes[..3], column(0, 7, 1, 0), 0), Err(refusal(3, 0)));
}

#[test]
fn days_are_arithmetic() {
    let table = made(&[1; 25]);
    let change = |day| day_change(25, &table.coefficients, &table.codes, day);
    assert_eq!(change(1), Ok(Some(0)));
    for day in [2, 1 << 59, 1 << 60, 1 << 61, 1 << 62, 1 << 63, u64::MAX, u64::MAX / 24, u64::MAX / 24 + 1] {
        assert_eq!(change(day), Err(refusal(5, 0)), "day {day}");
    }
    let one_day = made(&[1; 24]);
    assert_eq!(day_change(24, &one_day.coefficients, &one_day.codes, 1), Err(refusal(5, 0)));
}

#[test]
fn levels() {
    let table = made(&SEVEN_HOURS);
    let taken = |n, j| level(n, j, &table.coefficients);
    assert_eq!(taken(7, 0), Stretch { start: 2, length: 2 });
    assert_eq!(taken(7, 1), Stretch { start: 4, length: 4 });
    assert_eq!(taken(7, 0).of(&table.coefficients), [8140, 8560]);
    assert_eq!(taken(7, 1).of(&table.coefficients), [300, 450, 2_000_001, 2_000_001]);
    for j in [2, 3, 63, 64, 65, 1 << 32, 1 << 63, u64::MAX] {
        assert_eq!(taken(7, j), Stretch { start: 0, length: 0 }, "level {j}");
    }
    for n in [0, 9, 16_385, u64::MAX] {
        assert_eq!(taken(n, 0), Stretch { start: 0, length: 0 }, "n {n}");
    }
    assert_eq!(level(7, 0, &table.coefficients[..7]), Stretch { start: 0, length: 0 });
    // The stretch is one of the table as lent, whatever it holds.
    assert_eq!(level(4, 0, &[0, 0, i32::MIN, 5, 6]).of(&[0, 0, i32::MIN, 5, 6]), [i32::MIN, 5]);
    let most = vec![0; 16_384];
    assert_eq!(level(16_384, 12, &most), Stretch { start: 8_192, length: 8_192 });
    assert_eq!(level(16_384, 13, &most), Stretch { start: 0, length: 0 });
}

#[test]
fn records_are_neither_longer_nor_shorter() {
    let mut record = [0; 14];
    assert_eq!(write_record(1, &[500, 500], &[2], &mut record), Ok(14));
    assert_eq!(record, [0, 0, 0, 10, 1, 0, 1, 0, 1, 244, 0, 1, 244, 2]);
    assert_eq!(read_record(&record, &mut [0; 2], &mut [0]), Ok(1));
    assert_eq!(read_record(&record[..13], &mut [0; 2], &mut [0]), Err(refusal(8, 0)));
    assert_eq!(read_record(&[&record[..], &[0]].concat(), &mut [0; 2], &mut [0]), Err(refusal(11, 0)));
    for version in [0, 1, 2, 255] {
        assert_eq!(read_record(&[0, 0, 0, 10, version, 0], &mut [], &mut []), Err(refusal(8, 0)));
    }
}

#[test]
fn views() {
    let record = [0, 0, 0, 10, 1, 0, 2, 0xff, 0xff, 0xff, 0, 1, 244, 9];
    assert_eq!(open(&record).map(|opened| (opened.n, opened.p)), Ok((2, 2)));
    assert_eq!([0, 1].map(|place| ask(&record, place)), [Ok(-1), Ok(500)]);
    for place in [2, 3, 1 << 63, u64::MAX] {
        assert_eq!(ask(&record, place), Err(refusal(13, 0)));
        assert_eq!(ask_view(&[], 2, place), Err(refusal(13, 0)));
        assert_eq!(ask_view(&record, 2, place), Err(refusal(13, 0)));
    }
    assert_eq!([12, 13].map(|bytes| ask_view(&record[..bytes], 2, 1)), [Err(refusal(8, 0)), Ok(500)]);
    assert_eq!([0, 7, 9, 10].map(|bytes| ask_view(&record[..bytes], 1, 0).is_ok()), [false, false, false, true]);
    for place in [3, 1 << 62, (1 << 63) + 1, u64::MAX / 3, u64::MAX - 1] {
        assert_eq!(ask_view(&record, u64::MAX, place), Err(refusal(8, 0)), "place {place}");
    }
    assert_eq!(ask_view(&record, 0, 0), Err(refusal(13, 0)));
}

fn printed(input: &str) -> String {
    String::from_utf8(print(input.as_bytes())).unwrap()
}

#[test]
fn a_bad_line_after_too_many_hours_comes_first() {
    let many = format!("0 1 1\n{}", "5\n".repeat(40_001));
    assert_eq!(printed(&many), "refused 1 at 0\n");
    assert_eq!(printed(&format!("{many}--\n")), "refused 12 at 40003\n");
    assert_eq!(printed(&format!("{many}--")), "refused 12 at 40003\n");
    let far = format!("0 1 1\n{}x", "5\n".repeat(70_000));
    assert_eq!(printed(&far), "refused 12 at 70002\n");
}

#[test]
fn line_feeds() {
    let one_column = "column first last low high nodes\n0 5 5 5 5 3\n";
    assert_eq!(printed("0 1 1\n5\n"), one_column);
    assert_eq!(printed("0 1 1\n5"), one_column);
    assert_eq!(printed("0 1 1\n5\n\n"), "refused 12 at 3\n");
    assert_eq!(printed("\n"), "refused 12 at 1\n");
    assert_eq!(printed(""), "refused 12 at 1\n");
    assert_eq!(printed("0 1 1"), "refused 1 at 0\n");
    assert_eq!(printed("0 1 1\n"), "refused 1 at 0\n");
    assert_eq!(printed("9 1 0\n"), "refused 1 at 0\n");
    assert_eq!(printed("0 1 1\r\n5\n"), "refused 12 at 1\n");
    assert_eq!(printed("0 1 1\n5\r\n"), "refused 12 at 2\n");
}

#[test]
fn digits() {
    assert_eq!(printed("00000 00001 00001\n-0000000\n"), "column first last low high nodes\n0 0 0 0 0 3\n");
    assert_eq!(printed("0 1 1\n-0"), "column first last low high nodes\n0 0 0 0 0 3\n");
    assert_eq!(printed("000000 1 1\n5"), "refused 12 at 1\n");
    for hour in ["--1", "+1", " 1", "1 ", "- ", " -", "12345678", "-12345678", "1-", "1.0", "٣", ""] {
        assert_eq!(printed(&format!("0 1 1\n5\n{hour}\n")), "refused 12 at 3\n", "{hour:?}");
    }
    assert_eq!(printed("0 1 1\n1\n2\n1000001\n2000003\n"), "refused 2 at 2\n");
    assert_eq!(printed("9 1 0\n1\n2000003\n"), "refused 2 at 1\n");
}

#[test]
fn edges_need_no_table() {
    assert_eq!(edges(0, column(9, 1, 0, 0)), Err(refusal(1, 0)));
    assert_eq!(edges(7, column(9, 1, 0, 0)), Err(refusal(5, 0)));
    assert_eq!(edges(7, column(0, 1, 0, 0)), Err(refusal(6, 0)));
}
