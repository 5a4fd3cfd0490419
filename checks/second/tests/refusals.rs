//! Every refusal at its turn: all combinations of causes, the first in document 01's order answered, nothing written.

mod common;

use common::{column, made, refusal, Made, SEVEN_HOURS};
use second::hours::GAP;
use second::{day_change, edges, finished, make, read_record, rebuild, stopped, turn_back, write_record};
use second::{Column, Refusal};

const BAD_N: [u64; 5] = [0, 16_385, 1 << 32, (1 << 32) + 7, u64::MAX];
const BAD_WINDOWS: [(u64, u64); 6] = [(3, 3), (4, 3), (0, 8), (7, 8), (0, u64::MAX), (u64::MAX, 0)];
const BAD_COLUMNS: [(u64, u64); 6] = [(0, 0), (4_097, 0), (3, 3), (3, u64::MAX), (u64::MAX, 0), (4_096, 4_096)];
const BAD_DEPTHS: [u64; 3] = [4, 64, u64::MAX];

/// The refusal due: the first of the causes that is there.
fn due(causes: &[(bool, Refusal)]) -> Option<Refusal> {
    causes.iter().find(|(there, _)| *there).map(|&(_, refusal)| refusal)
}

/// All combinations of as many causes.
fn combinations<const CAUSES: usize>() -> impl Iterator<Item = [bool; CAUSES]> {
    (0..1 << CAUSES).map(|bits: u32| std::array::from_fn(|cause| bits >> cause & 1 == 1))
}

/// Lengths of buffers, of which at least one is below what is needed if they are to be short.
fn lengths<const BUFFERS: usize>(needed: [usize; BUFFERS], short: bool) -> Vec<[usize; BUFFERS]> {
    if !short {
        return vec![needed, needed.map(|needed| needed + 2)];
    }
    let one_short = |buffer: usize, by: usize| {
        std::array::from_fn(|other| if other == buffer { needed[other] - by } else { needed[other] + other })
    };
    let mut lengths: Vec<[usize; BUFFERS]> = vec![[0; BUFFERS], needed.map(|needed| needed - 1)];
    for (buffer, all) in needed.into_iter().enumerate() {
        lengths.push(one_short(buffer, 1));
        lengths.push(one_short(buffer, all));
    }
    lengths
}

fn resized<T: Clone>(buffer: &[T], length: usize, filling: T) -> Vec<T> {
    let mut buffer = buffer.to_vec();
    buffer.resize(length, filling);
    buffer
}

fn choices<T: Copy>(bad: bool, bad_ones: &[T], good: T) -> Vec<T> {
    if bad {
        bad_ones.to_vec()
    } else {
        vec![good]
    }
}

/// The seven hours' table, or one with an unsound root.
fn table(unsound: bool) -> Made {
    let mut table = made(&SEVEN_HOURS);
    if unsound {
        table.coefficients[0] = 41351;
    }
    table
}

#[test]
fn making() {
    for [bad_n, short, bad_hour] in combinations() {
        let mut readings = SEVEN_HOURS.to_vec();
        if bad_hour {
            (readings[3], readings[5]) = (1_000_001, 2_000_000);
        }
        for n in choices(bad_n, &BAD_N, 7) {
            for [read, room, code_room] in lengths([7, 8, 4], short) {
                let readings = resized(&readings, read, i32::MIN);
                let (mut coefficients, mut codes) = (vec![77; room], vec![78; code_room]);
                let causes = [(bad_n, refusal(1, 0)), (short, refusal(3, 0)), (bad_hour, refusal(2, 3))];
                let input = format!("n {n}, {readings:?}, room {room} and {code_room}");
                let given = make(n, &readings, &mut coefficients, &mut codes);
                assert_eq!(given.err(), due(&causes), "{input}");
                if given.is_err() {
                    assert_eq!((coefficients, codes), (vec![77; room], vec![78; code_room]), "{input}");
                } else {
                    let Made { coefficients: made, codes: made_codes, .. } = table(false);
                    assert_eq!(coefficients, resized(&made, room, 77), "{input}");
                    assert_eq!(codes, resized(&made_codes, code_room, 78), "{input}");
                }
            }
        }
    }
}

#[test]
fn numbers_that_are_neither_reading_nor_gap() {
    let neither = [1_000_001, -1_000_001, 2_000_000, 2_000_001, 2_000_002, 2_000_004, -2_000_003, i32::MIN, i32::MAX];
    for bad in neither {
        for hour in 0..5 {
            let mut readings = [0; 6];
            (readings[hour], readings[5]) = (bad, bad);
            // The sixth is no hour of the series.
            let given = make(5, &readings, &mut [0; 8], &mut [0; 4]);
            assert_eq!(given, Err(refusal(2, hour as u64)), "{readings:?}");
        }
        assert_eq!(make(5, &[0, 0, 0, 0, 0, bad], &mut [0; 8], &mut [0; 4]), Ok(()), "{bad}");
    }
    for good in [1_000_000, -1_000_000, 0, -1, GAP] {
        assert_eq!(make(1, &[good], &mut [0; 2], &mut [0]), Ok(()), "{good}");
    }
}

#[test]
fn turning_back() {
    for [bad_n, short, unsound] in combinations() {
        let table = table(unsound);
        for n in choices(bad_n, &BAD_N, 7) {
            for [lent, lent_codes, room] in lengths([8, 4, 7], short) {
                let (coefficients, codes) =
                    (resized(&table.coefficients, lent, 9), resized(&table.codes, lent_codes, 9));
                let mut hours = vec![77; room];
                let causes = [(bad_n, refusal(1, 0)), (short, refusal(3, 0)), (unsound, refusal(4, 0))];
                let input = format!("n {n}, {coefficients:?}, {codes:?}, room {room}");
                let given = turn_back(n, &coefficients, &codes, &mut hours);
                assert_eq!(given.err(), due(&causes), "{input}");
                let after = if given.is_ok() { resized(&SEVEN_HOURS, room, 77) } else { vec![77; room] };
                assert_eq!(hours, after, "{input}");
            }
        }
    }
}

/// Seven hours of an old scale, of which 1 and 4 were not recorded. Their counts go with no weight here.
const OLD_HOURS: [i32; 7] = [999_990, GAP, 999_980, 1_000_000, GAP, 967_232, 999_999];

#[test]
fn rebuilding() {
    for [bad_n, short, bad_flag, bad_start, bad_weight] in combinations() {
        let mut weights = OLD_HOURS;
        if bad_weight {
            // The weight after it can be a reading again.
            (weights[2], weights[6]) = (1_000_001, 1_000_001);
        }
        let counts = weights.map(|weight| if weight == GAP { 999 } else { (weight % 65_536) as u16 });
        let mut flags = weights.map(|weight| u8::from(weight != GAP));
        if bad_flag {
            (flags[4], flags[6]) = (2, 255);
        }
        for n in choices(bad_n, &BAD_N, 7) {
            for start in choices(bad_start, &[0, 999_991, -999_990, i32::MIN, i32::MAX], 999_990) {
                for [lent, lent_flags, room] in lengths([7, 7, 7], short) {
                    let (counts, flags) = (resized(&counts, lent, 9), resized(&flags, lent_flags, 9));
                    let mut hours = vec![77; room];
                    let causes = [
                        (bad_n, refusal(1, 0)),
                        (short, refusal(3, 0)),
                        (bad_flag, refusal(14, 4)),
                        (bad_start, refusal(15, 0)),
                        (bad_weight, refusal(2, 2)),
                    ];
                    let input = format!("n {n}, {counts:?}, {flags:?}, start {start}, room {room}");
                    let given = rebuild(n, &counts, &flags, start, &mut hours);
                    assert_eq!(given.err(), due(&causes), "{input}");
                    let after = if given.is_ok() { resized(&OLD_HOURS, room, 77) } else { vec![77; room] };
                    assert_eq!(hours, after, "{input}");
                }
            }
        }
    }
}

#[test]
fn writing_a_record() {
    for [bad_n, short, unsound] in combinations() {
        let table = table(unsound);
        for n in choices(bad_n, &BAD_N, 7) {
            for [lent, lent_codes, room] in lengths([8, 4, 35], short) {
                let (coefficients, codes) =
                    (resized(&table.coefficients, lent, 9), resized(&table.codes, lent_codes, 9));
                let mut record = vec![77; room];
                let causes = [(bad_n, refusal(1, 0)), (short, refusal(3, 0)), (unsound, refusal(4, 0))];
                let input = format!("n {n}, {coefficients:?}, {codes:?}, room {room}");
                let given = write_record(n, &coefficients, &codes, &mut record);
                assert_eq!(given.err(), due(&causes), "{input}");
                if given.is_err() {
                    assert_eq!(record, vec![77; room], "{input}");
                } else {
                    assert_eq!((given, record[6], &record[35..]), (Ok(35), 7, &vec![77; room - 35][..]), "{input}");
                }
            }
        }
    }
}

#[test]
fn reading_a_record() {
    for [under_seven, bad_version, bad_n, bad_length, fewer, more, short, unsound] in combinations() {
        if fewer && more {
            continue;
        }
        let mut whole = vec![0; 35];
        let table = table(false);
        assert_eq!(write_record(7, &table.coefficients, &table.codes, &mut whole), Ok(35));
        if unsound {
            whole[7] = 0x7f;
        }
        whole[3] += u8::from(bad_length);
        whole[4] += u8::from(bad_version);
        for [high, low] in choices(bad_n, &[[0, 0], [64, 1], [255, 255]], [0, 7]) {
            (whole[5], whole[6]) = (high, low);
            let mut bytes = whole.clone();
            if more {
                bytes.extend([0, 1]);
            }
            if fewer {
                bytes.truncate(34);
            }
            if under_seven {
                bytes.truncate(6);
            }
            for [room, code_room] in lengths([8, 4], short) {
                let (mut coefficients, mut codes) = (vec![77; room], vec![78; code_room]);
                let causes = [
                    (under_seven, refusal(8, 0)),
                    (bad_version, refusal(9, 0)),
                    (bad_n, refusal(1, 0)),
                    (bad_length, refusal(10, 0)),
                    (fewer, refusal(8, 0)),
                    (more, refusal(11, 0)),
                    (short, refusal(3, 0)),
                    (unsound, refusal(4, 0)),
                ];
                let input = format!("{bytes:?}, room {room} and {code_room}");
                let given = read_record(&bytes, &mut coefficients, &mut codes);
                assert_eq!(given.err(), due(&causes), "{input}");
                if given.is_err() {
                    assert_eq!((coefficients, codes), (vec![77; room], vec![78; code_room]), "{input}");
                } else {
                    assert_eq!(given, Ok(7), "{input}");
                    assert_eq!(coefficients, resized(&table.coefficients, room, 77), "{input}");
                    assert_eq!(codes, resized(&table.codes, code_room, 78), "{input}");
                }
            }
        }
    }
}

/// Windows and columns of the seven hours with these causes.
fn columns(bad_window: bool, bad_column: bool) -> Vec<Column> {
    let windows = choices(bad_window, &BAD_WINDOWS, (0, 7));
    let numbers = choices(bad_column, &BAD_COLUMNS, (3, 1));
    windows.iter().flat_map(|&(a, b)| numbers.iter().map(move |&(w, k)| column(a, b, w, k))).collect()
}

#[test]
fn column_calls() {
    for [bad_n, short, bad_window, bad_column, bad_depth, unsound] in combinations() {
        let table = table(unsound);
        let one = |there, number| (there, refusal(number, 0));
        let (n_cause, short_cause) = (one(bad_n, 1), one(short, 3));
        let (window_cause, column_cause) = (one(bad_window, 5), one(bad_column, 6));
        let (depth_cause, unsound_cause) = (one(bad_depth, 7), one(unsound, 4));
        for n in choices(bad_n, &BAD_N, 7) {
            for column in columns(bad_window, bad_column) {
                let given = edges(n, column).err();
                assert_eq!(given, due(&[n_cause, window_cause, column_cause]), "n {n}, {column:?}");
                for [lent, lent_codes] in lengths([8, 4], short) {
                    let coefficients = resized(&table.coefficients, lent, 9);
                    let codes = resized(&table.codes, lent_codes, 9);
                    let input = format!("n {n}, {coefficients:?}, {codes:?}, {column:?}");

                    let causes = [n_cause, short_cause, window_cause, column_cause, unsound_cause];
                    assert_eq!(finished(n, &coefficients, &codes, column).err(), due(&causes), "{input}");

                    for depth in choices(bad_depth, &BAD_DEPTHS, 3) {
                        let causes = [n_cause, short_cause, window_cause, column_cause, depth_cause, unsound_cause];
                        let given = stopped(n, &coefficients, &codes, column, depth).err();
                        assert_eq!(given, due(&causes), "{input}, depth {depth}");
                    }
                }
            }
        }
    }
}

#[test]
fn days() {
    for [bad_n, short, bad_day, unsound] in combinations() {
        let table = table(unsound);
        for n in choices(bad_n, &BAD_N, 7) {
            for day in choices(bad_day, &[1, 2, 1 << 61, 1 << 63, u64::MAX], 0) {
                for [lent, lent_codes] in lengths([8, 4], short) {
                    let coefficients = resized(&table.coefficients, lent, 9);
                    let codes = resized(&table.codes, lent_codes, 9);
                    let causes = [
                        (bad_n, refusal(1, 0)),
                        (short, refusal(3, 0)),
                        (bad_day, refusal(5, 0)),
                        (unsound, refusal(4, 0)),
                    ];
                    let given = day_change(n, &coefficients, &codes, day).err();
                    assert_eq!(given, due(&causes), "n {n}, day {day}, {coefficients:?}, {codes:?}");
                }
            }
        }
    }
}

#[test]
fn the_longest_series_is_taken_and_one_more_is_not() {
    let table = made(&[3; 16_384]);
    let (mut hours, mut record) = (vec![0; 16_384], vec![0; 57_351]);
    assert_eq!(turn_back(16_384, &table.coefficients, &table.codes, &mut hours), Ok(()));
    assert_eq!(write_record(16_384, &table.coefficients, &table.codes, &mut record), Ok(57_351));
    assert_eq!(write_record(16_384, &table.coefficients, &table.codes, &mut record[..57_350]), Err(refusal(3, 0)));
    let more = vec![0; 40_000];
    assert_eq!(turn_back(16_385, &more, &[0; 20_000], &mut more.clone()), Err(refusal(1, 0)));
}
