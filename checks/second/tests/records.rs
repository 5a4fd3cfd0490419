//! House records: written, read, cut, lengthened, flipped, and asked for single coefficients.

mod common;

use common::{damage, draw_n, draw_series, made, refusal, shape, Made, SEVEN_HOURS};
use second::random::Random;
use second::{ask, open, read_record, turn_back, write_record, Refusal};

/// A table read out of a record, with n.
type Read = (u64, Vec<i32>, Vec<u8>);

/// The record of a table.
fn record_of(table: &Made) -> Vec<u8> {
    let mut record = vec![0; bytes_of(table.n)];
    let written = write_record(table.n, &table.coefficients, &table.codes, &mut record);
    assert_eq!(written, Ok(record.len() as u64), "{table:?}");
    record
}

fn bytes_of(n: u64) -> usize {
    let p = shape(n).p as usize;
    7 + 3 * p + p / 2
}

/// Reads a record into buffers with room enough; on a refusal nothing is written.
fn read(record: &[u8]) -> Result<Read, Refusal> {
    let (mut coefficients, mut codes) = (vec![77; 64], vec![78; 32]);
    match read_record(record, &mut coefficients, &mut codes) {
        Ok(n) => {
            let p = shape(n).p as usize;
            assert!(coefficients[p..].iter().all(|&guard| guard == 77), "past the coefficients: {record:?}");
            assert!(codes[p / 2..].iter().all(|&guard| guard == 78), "past the codes: {record:?}");
            Ok((n, coefficients[..p].to_vec(), codes[..p / 2].to_vec()))
        }
        Err(refusal) => {
            assert_eq!((coefficients, codes), (vec![77; 64], vec![78; 32]), "written on {refusal}: {record:?}");
            Err(refusal)
        }
    }
}

/// A big-endian number in two's complement.
fn number_of(bytes: &[u8]) -> i64 {
    let unsigned = bytes.iter().fold(0, |number, &byte| 256 * number + i64::from(byte));
    if bytes[0] >= 128 {
        unsigned - (1 << (8 * bytes.len()))
    } else {
        unsigned
    }
}

#[test]
fn bytes_of_the_seven_hours() {
    let record = record_of(&made(&SEVEN_HOURS));
    assert_eq!(record.len(), 35);
    assert_eq!(record[..7], [0, 0, 0, 31, 1, 0, 7]);
    let coefficients: Vec<i64> = record[7..31].chunks(3).map(number_of).collect();
    assert_eq!(coefficients, [32760, 41350, 8140, 8560, 300, 450, 2_000_001, 2_000_001]);
    assert_eq!(record[31..], [1, 3, 1, 4]);
}

#[test]
fn bytes_of_the_least_and_the_greatest_record() {
    let least = record_of(&made(&[-1, 1]));
    assert_eq!(least, [0, 0, 0, 10, 1, 0, 2, 255, 255, 255, 0, 0, 1, 1]);
    let greatest = record_of(&made(&[5; 16_384]));
    assert_eq!(greatest.len(), 57_351);
    assert_eq!(number_of(&greatest[..4]), 57_347);
    assert_eq!(greatest[4..7], [1, 64, 0]);
    let far = record_of(&made(&[-1_000_000, -1_000_000, 1_000_000, 1_000_000]));
    assert_eq!(number_of(&far[13..16]), -2_000_000);
}

#[test]
fn read_after_write_gives_the_same() {
    let seed = 31;
    let mut random = Random::new(seed);
    for _ in 0..20_000 {
        let n = draw_n(&mut random, 64);
        let table = made(&draw_series(&mut random, n));
        let record = record_of(&table);
        let same = (n, table.coefficients.clone(), table.codes.clone());
        assert_eq!(read(&record), Ok(same), "seed {seed}, {table:?}");
        let p = table.coefficients.len() as u64;
        assert_eq!(open(&record).map(|opened| (opened.n, opened.p)), Ok((n, p)), "seed {seed}, {table:?}");
        for (place, &coefficient) in (0..).zip(&table.coefficients) {
            assert_eq!(ask(&record, place), Ok(coefficient), "seed {seed}, place {place}, {table:?}");
        }
        assert_eq!(ask(&record, p), Err(refusal(13, 0)), "seed {seed}, {table:?}");
    }
}

#[test]
fn writing_leaves_the_bytes_after_the_record() {
    let table = made(&SEVEN_HOURS);
    let mut record = vec![200; 40];
    assert_eq!(write_record(7, &table.coefficients, &table.codes, &mut record), Ok(35));
    assert_eq!(record[..35], record_of(&table));
    assert_eq!(record[35..], [200; 5]);
}

#[test]
fn records_cut_and_lengthened() {
    for series in [&[500][..], &[7, 9], &[1, 2, 3], &SEVEN_HOURS] {
        let record = record_of(&made(series));
        for bytes in 0..record.len() {
            assert_eq!(read(&record[..bytes]), Err(refusal(8, 0)), "{bytes} bytes of {record:?}");
            assert_eq!(open(&record[..bytes]), Err(refusal(8, 0)), "{bytes} bytes of {record:?}");
            assert_eq!(ask(&record[..bytes], 0), Err(refusal(8, 0)), "{bytes} bytes of {record:?}");
        }
        for more in 1..5 {
            let longer = [&record[..], &vec![1; more]].concat();
            assert_eq!(read(&longer), Err(refusal(11, 0)), "{longer:?}");
            assert_eq!(open(&longer), Err(refusal(11, 0)), "{longer:?}");
            assert_eq!(ask(&longer, 99), Err(refusal(11, 0)), "{longer:?}");
        }
    }
}

/// What reading any bytes gives, told byte by byte.
fn expected(bytes: &[u8]) -> Result<Read, Refusal> {
    let refuse = |number| Err(refusal(number, 0));
    if bytes.len() < 7 {
        return refuse(8);
    }
    if bytes[4] != 1 {
        return refuse(9);
    }
    let n = 256 * u64::from(bytes[5]) + u64::from(bytes[6]);
    if !(1..=16_384).contains(&n) {
        return refuse(1);
    }
    let stated = bytes[..4].iter().fold(0, |stated, &byte| 256 * stated + usize::from(byte));
    if stated + 4 != bytes_of(n) {
        return refuse(10);
    }
    if bytes.len() != bytes_of(n) {
        return refuse(if bytes.len() < bytes_of(n) { 8 } else { 11 });
    }
    let p = shape(n).p as usize;
    let coefficients: Vec<i32> = bytes[7..7 + 3 * p].chunks(3).map(|three| number_of(three) as i32).collect();
    let codes = bytes[7 + 3 * p..].to_vec();
    turn_back(n, &coefficients, &codes, &mut vec![0; n as usize])?;
    Ok((n, coefficients, codes))
}

#[test]
fn flipped_bits() {
    let mut numbers = [0; 14];
    for series in [&[500][..], &[7, 9], &[1, 2, 3], &[4, -3, 0, 1], &[6; 5], &SEVEN_HOURS] {
        let record = record_of(&made(series));
        for bit in 0..8 * record.len() {
            let mut flipped = record.clone();
            flipped[bit / 8] ^= 1 << (bit % 8);
            let given = read(&flipped);
            assert_eq!(given, expected(&flipped), "bit {bit} of {record:?}");
            assert_ne!(given, read(&record), "bit {bit} of {record:?}");
            numbers[given.map_or_else(|refusal| usize::from(refusal.number), |_| 0)] += 1;
        }
    }
    for number in [0, 1, 4, 9, 10] {
        assert!(numbers[number] > 0, "refusal {number} (0: none) occurs: {numbers:?}");
    }
}

#[test]
fn any_bytes() {
    let seed = 32;
    let mut random = Random::new(seed);
    let mut numbers = [0; 14];
    for _ in 0..200_000 {
        let n = draw_n(&mut random, 20);
        let mut table = made(&draw_series(&mut random, n));
        let mut bytes = record_of(&table);
        if random.once_in(3) {
            // An unsound table, its coefficients cut to three bytes.
            damage(&mut random, &mut table);
            let p = table.coefficients.len();
            for (three, coefficient) in bytes[7..].chunks_mut(3).zip(&table.coefficients) {
                three.copy_from_slice(&coefficient.to_be_bytes()[1..]);
            }
            bytes[7 + 3 * p..].copy_from_slice(&table.codes);
        }
        for _ in 0..random.below(3) {
            let place = random.below(bytes.len().min(9) as u64) as usize;
            bytes[place] = random.one_of(&[0, 1, 2, 4, 17, 31, 64, 255]);
        }
        let length = (bytes.len() as u64 + random.one_of(&[0, 0, 0, 1, 2])).saturating_sub(random.below(2));
        bytes.resize(length as usize, 0);

        let expected = expected(&bytes);
        assert_eq!(read(&bytes), expected, "seed {seed}, {bytes:?}");
        let opened = open(&bytes).map(|opened| (opened.n, opened.p));
        match expected {
            Err(refusal) if refusal.number != 4 => assert_eq!(opened, Err(refusal), "seed {seed}, {bytes:?}"),
            _ => assert_eq!(opened.map(|(_, p)| bytes.len() as u64 - 7 - 3 * p - p / 2), Ok(0), "{bytes:?}"),
        }
        numbers[expected.map_or_else(|refusal| usize::from(refusal.number), |_| 0)] += 1;
    }
    for number in [0, 1, 4, 8, 9, 10, 11] {
        assert!(numbers[number] > 100, "refusal {number} (0: none) occurs: {numbers:?}");
    }
}

#[test]
fn the_length_field_of_every_n() {
    for n in 0..=u16::MAX {
        let in_range = (1..=16_384).contains(&n);
        let length = if in_range { bytes_of(n.into()) as u32 - 4 } else { 10 };
        let header = |length: u32| [&length.to_be_bytes()[..], &[1], &n.to_be_bytes()].concat();
        let (right, wrong) = if in_range { (8, 10) } else { (1, 1) };
        assert_eq!(open(&header(length)), Err(refusal(right, 0)), "n {n}");
        assert_eq!(open(&header(length + 1)), Err(refusal(wrong, 0)), "n {n}");
        assert_eq!(open(&header(length + (1 << 24))), Err(refusal(wrong, 0)), "n {n}");
    }
}

#[test]
fn opening_does_not_examine() {
    // Root values 5, 4 are unsound and are handed out all the same.
    let record = [0, 0, 0, 10, 1, 0, 2, 0, 0, 5, 0, 0, 4, 9];
    assert_eq!(read_record(&record, &mut [0; 2], &mut [0]), Err(refusal(4, 0)));
    assert_eq!([0, 1].map(|place| ask(&record, place)), [Ok(5), Ok(4)]);
}

#[test]
fn three_bytes_are_twos_complement() {
    for first in 0..=255 {
        for rest in [[0, 0], [0, 1], [127, 255], [255, 255]] {
            let three = [first, rest[0], rest[1]];
            let record = [&[0, 0, 0, 10, 1, 0, 2][..], &three, &three, &[0]].concat();
            for place in [0, 1] {
                assert_eq!(ask(&record, place).map(i64::from), Ok(number_of(&three)), "{three:?}");
            }
        }
    }
}
