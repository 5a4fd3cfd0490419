//! Reading records.

use std::collections::BTreeSet;

use crate::common::{draw_series, record_size, refusal, table_of, READ_RECORD};
use bench::words::GAP;
use second::random::Random;

/// n, or the number of the refusal; each side has to give what the second program gives, with the same buffers after
/// it.
fn compare(record: &[u8], coefficients: &[i32], codes: &[u8]) -> Result<usize, u8> {
    let mut expected = (coefficients.to_vec(), codes.to_vec());
    let by_second = second::read_record(record, &mut expected.0, &mut expected.1);
    let by_second = by_second.map(|n| n as usize).map_err(refusal);
    for read_record in READ_RECORD {
        let mut written = (coefficients.to_vec(), codes.to_vec());
        assert_eq!(read_record(record, &mut written.0, &mut written.1), by_second, "{record:?}");
        assert_eq!(written, expected, "{record:?}");
    }
    by_second.map_err(|refusal| refusal.number)
}

/// The record of a table.
fn record_of(n: usize, coefficients: &[i32], codes: &[u8]) -> Vec<u8> {
    let mut record = vec![0; record_size(coefficients.len())];
    assert_eq!(second::write_record(n as u64, coefficients, codes, &mut record), Ok(record.len() as u64));
    record
}

/// A good record of n hours.
fn draw_record(random: &mut Random, n: usize) -> Vec<u8> {
    let (coefficients, codes) = table_of(&draw_series(random, n));
    record_of(n, &coefficients, &codes)
}

#[test]
fn cut_lengthened_and_damaged() {
    let mut random = Random::new(9);
    let mut seen = BTreeSet::new();
    for round in 0..20_000 {
        let n = if round < 4_200 { 1 + round % 70 } else { 1 + random.below(40) as usize };
        let mut record = draw_record(&mut random, n);
        let (coefficients, codes) = (vec![-7; 129], vec![77; 65]);
        assert_eq!(compare(&record, &coefficients, &codes), Ok(n));
        let short = random.below(128) as usize;
        seen.insert(compare(&record, &coefficients[..short], &codes).err());
        seen.insert(compare(&record, &coefficients, &codes[..short / 2]).err());

        let changed = if random.once_in(3) { 7 } else { record.len() as u64 };
        let place = random.below(changed) as usize;
        record[place] ^= 1 << random.below(8);
        if random.once_in(4) {
            record.resize(random.below(2 * record.len() as u64) as usize, 0);
        }
        seen.insert(compare(&record, &coefficients, &codes).err());
    }
    let every_number = [None, Some(1), Some(3), Some(4), Some(8), Some(9), Some(10), Some(11)];
    assert!(seen.into_iter().eq(every_number));
}

#[test]
fn every_size() {
    for p in (1..=14).map(|l| 1 << l) {
        let (coefficients, codes) = (vec![GAP; p], vec![4; p / 2]);
        let mut record = record_of(p, &coefficients, &codes);
        assert_eq!(compare(&record, &vec![-7; p], &vec![77; p / 2]), Ok(p));
        assert_eq!(compare(&record[..record.len() - 1], &coefficients, &codes), Err(8));
        record.push(0);
        assert_eq!(compare(&record, &coefficients, &codes), Err(11));
    }
    for length in 0..14 {
        assert_eq!(compare(&[0, 0, 0, 10, 1, 0, 2, 0, 0, 5, 0, 0, 9, 0][..length], &[], &[]), Err(8));
    }
}

#[test]
fn long_ones() {
    let mut random = Random::new(10);
    for n in [1_000, 4_097, 16_383, 16_384] {
        let mut record = draw_record(&mut random, n);
        assert_eq!(compare(&record, &[-7; 16_384], &[77; 8_192]), Ok(n));
        let last = record.len() - 1;
        record[last] ^= 4;
        assert_eq!(compare(&record, &[-7; 16_384], &[77; 8_192]), Err(4));
    }
}
