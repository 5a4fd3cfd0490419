//! Records as bytes: the layout, and those that stand at the edges, of sound and unsound tables, as they are, cut,
//! lengthened or changed.

use second::hours::GAP;
use second::table::ONLY_LEFT;

use crate::numbers::{Room, EDGES_OF_N, EVERY_P};
use crate::tables::Table;

/// Bytes before the first coefficient.
pub const HEADER: usize = 7;
/// Where the version stands.
pub const VERSION: usize = 4;
/// The least and the greatest number that three bytes hold.
const THREE_BYTES: (i32, i32) = (-(1 << 23), (1 << 23) - 1);

/// The record of a table, sound or not, with n in its header as far as two bytes hold it. A coefficient that three
/// bytes do not hold becomes the closest one that they do.
pub fn record_of(n: usize, table: &Table) -> Vec<u8> {
    let length = 3 + 3 * table.coefficients.len() + table.codes.len();
    let mut bytes = (length as u32).to_be_bytes().to_vec();
    bytes.push(1);
    bytes.extend((n as u16).to_be_bytes());
    for &coefficient in &table.coefficients {
        bytes.extend(&coefficient.clamp(THREE_BYTES.0, THREE_BYTES.1).to_be_bytes()[1..]);
    }
    bytes.extend(&table.codes);
    bytes
}

/// The record of n equal readings. If no series has so many hours, it has room for three.
pub fn record_of_equal(n: usize) -> Vec<u8> {
    record_of(n, &Table::made(&vec![-5; Room::of(n).hours]))
}

/// The hours that a header states, 0 if the bytes end within it.
pub fn hours_stated(bytes: &[u8]) -> usize {
    match *bytes {
        [_, _, _, _, _, high, low, ..] => usize::from(u16::from_be_bytes([high, low])),
        _ => 0,
    }
}

/// The bytes that the whole record of the hours stated has, those of the header if the bytes end within it.
pub fn bytes_needed(bytes: &[u8]) -> Option<usize> {
    if bytes.len() < HEADER {
        return Some(HEADER);
    }
    Room::of_series(hours_stated(bytes)).map(Room::record)
}

fn changed(bytes: &[u8], change: impl FnOnce(&mut Vec<u8>)) -> Vec<u8> {
    let mut bytes = bytes.to_vec();
    change(&mut bytes);
    bytes
}

/// The same bytes up to this length, then zeros.
fn resized(bytes: &[u8], length: usize) -> Vec<u8> {
    changed(bytes, |bytes| bytes.resize(length, 0))
}

/// The same bytes, stating this length.
pub fn with_length_field(bytes: &[u8], length: u32) -> Vec<u8> {
    changed(bytes, |bytes| bytes[..VERSION].copy_from_slice(&length.to_be_bytes()))
}

/// The same bytes, stating so many hours.
pub fn with_hours(bytes: &[u8], n: u16) -> Vec<u8> {
    changed(bytes, |bytes| bytes[VERSION + 1..HEADER].copy_from_slice(&n.to_be_bytes()))
}

/// Records at the edges: small good ones with every small change, faults that come together, and for every P the good
/// one, cut and lengthened around its end, and unsound ones.
pub fn edge_records() -> Vec<Vec<u8>> {
    let seven_hours = [41_200, 41_350, GAP, 40_900, 32_760, 32_790, GAP];
    let small: [&[i32]; 6] = [&[500], &[GAP], &[7, 9], &[-1_000_000, 0, 1_000_000], &[9, 7, GAP, 0], &seven_hours];
    let mut records = Vec::new();
    for readings in small {
        let good = record_of(readings.len(), &Table::made(readings));
        records.extend((0..good.len() + 9).map(|length| resized(&good, length)));
        records.extend(flipped(&good));
        records.extend(with_other_headers(&good));
    }
    records.extend(faults_together());
    for n in EDGES_OF_N.into_iter().chain(EVERY_P) {
        records.extend(around_the_ends(&record_of_equal(n)));
    }
    for n in [2 * EVERY_P[13], EVERY_P[13] + 1, 65_535] {
        records.push(of_too_many_hours(n));
    }
    records.extend(unsound_tables().iter().map(|(n, table)| record_of(*n, table)));
    records
}

/// Every single bit flipped.
fn flipped(good: &[u8]) -> impl Iterator<Item = Vec<u8>> + '_ {
    (0..8 * good.len()).map(|bit| changed(good, |bytes| bytes[bit / 8] ^= 1 << (bit % 8)))
}

/// Every version; length fields off by one, in each byte, with their own four bytes counted, back to front; n
/// beyond every series, back to front, and others of the same P and of another.
fn with_other_headers(good: &[u8]) -> Vec<Vec<u8>> {
    let n = hours_stated(good) as u16;
    let length = (good.len() - 4) as u32;
    let mut records: Vec<Vec<u8>> = (0..=255).map(|version| changed(good, |bytes| bytes[VERSION] = version)).collect();
    for byte in 0..4 {
        records.extend([1, 255].map(|more| changed(good, |bytes| bytes[byte] = bytes[byte].wrapping_add(more))));
    }
    let lengths = [0, 1, 3, length - 7, length - 1, length + 1, length + 4, length.swap_bytes(), u32::MAX];
    records.extend(lengths.map(|length| with_length_field(good, length)));
    let hours = [0, n - 1, n + 1, 2 * n, 2 * n + 1, n.swap_bytes(), 16_384, 16_385, 32_768, 65_535];
    records.extend(hours.map(|n| with_hours(good, n)));
    records
}

/// Several faults in one record, so that the order of the refusals shows.
pub fn faults_together() -> Vec<Vec<u8>> {
    let mut records = Vec::new();
    for root in [[5, 9], [9, 5]] {
        let good = record_of(2, &Table { coefficients: root.to_vec(), codes: vec![0] });
        for version in [1, 0, 2] {
            let versed = changed(&good, |bytes| bytes[VERSION] = version);
            for n in [2, 0, 3, 16_385] {
                for length_field in [10, 9, 11] {
                    let whole = with_hours(&with_length_field(&versed, length_field), n);
                    records.extend([0, 4, 5, 6, 7, 8, 13, 14, 15].map(|length| resized(&whole, length)));
                }
            }
        }
    }
    records
}

/// Cut and lengthened where header, coefficients and codes end, and at twice the length.
fn around_the_ends(good: &[u8]) -> Vec<Vec<u8>> {
    let codes = Room::of(hours_stated(good)).codes.min(good.len() - HEADER);
    let ends = [HEADER, good.len() - codes, good.len()];
    let around = ends.into_iter().flat_map(|end| end - 1..=end + 1);
    around.chain([good.len() - 2, good.len() + 4, 2 * good.len()]).map(|length| resized(good, length)).collect()
}

/// What would be the good record of more hours than a series has.
fn of_too_many_hours(n: usize) -> Vec<u8> {
    let p = n.next_power_of_two();
    record_of(n, &Table { coefficients: vec![GAP; p], codes: vec![4; p / 2] })
}

/// For every P, tables of so many hours with one fault each: in the root values, at nodes above the pairs, at pairs,
/// and one whose last hour is beyond its series.
pub fn unsound_tables() -> Vec<(usize, Table)> {
    let mut tables = Vec::new();
    for p in EVERY_P {
        let readings: Vec<i32> = (0..p as i32).map(|hour| 30_000 - 7 * hour).collect();
        let good = Table::made(&readings);
        let mut damaged = |damage: &dyn Fn(&mut Table)| {
            let mut table = good.clone();
            damage(&mut table);
            tables.push((p, table));
        };
        damaged(&|table| table.coefficients.swap(0, 1));
        damaged(&|table| table.coefficients[1] = GAP);
        for above_pairs in [1, p / 4, p / 2 - 1].into_iter().filter(|&node| (1..p / 2).contains(&node)) {
            damaged(&|table| table.coefficients[2 * above_pairs] = ONLY_LEFT);
            damaged(&|table| table.coefficients[2 * above_pairs + 1] = THREE_BYTES.0);
        }
        for pair in [0, p / 4, p / 2 - 1] {
            damaged(&|table| table.codes[pair] = 4);
        }
        tables.push((p - 1, good));
    }
    tables
}

/// Places far beyond every record, among them those at which 7 + 3 · place wraps to a small number.
pub fn far_places() -> Vec<usize> {
    let wrapping = [32, 64].into_iter().flat_map(|bits| [1_u128, 2].map(|times| ((times << bits) / 3) as usize));
    let around = wrapping.flat_map(|place| place - 4..=place + 2);
    around.chain([1 << 16, 1 << 31, 1 << 32, 1 << 62, 1 << 63, usize::MAX - 1, usize::MAX]).collect()
}

#[cfg(test)]
mod tests {
    use super::*;

    /// What is packed here is what the second program writes.
    #[test]
    fn records_of_sound_tables_are_those_of_the_second_program() {
        for n in [1, 2, 3, 7, 16, 17, 1_000, 16_384] {
            let readings: Vec<i32> =
                (0..n as i32).map(|hour| if hour % 5 == 4 { GAP } else { 7 - 60 * hour }).collect();
            let table = Table::made(&readings);
            let mut written = vec![77; Room::of(n).record()];
            let bytes = second::write_record(n as u64, &table.coefficients, &table.codes, &mut written);
            assert_eq!(bytes, Ok(written.len() as u64));
            assert_eq!(record_of(n, &table), written);
            assert_eq!(hours_stated(&written), n);
        }
    }

    #[test]
    fn coefficients_keep_to_three_bytes() {
        let table = Table { coefficients: vec![i32::MIN, i32::MAX], codes: vec![255] };
        assert_eq!(record_of(65_538, &table), [0, 0, 0, 10, 1, 0, 2, 128, 0, 0, 127, 255, 255, 255]);
    }

    #[test]
    fn unsound_tables_are_unsound() {
        for (n, table) in unsound_tables() {
            let mut hours = vec![0; n];
            let turned = second::turn_back(n as u64, &table.coefficients, &table.codes, &mut hours);
            assert_eq!(turned.map_err(|refusal| refusal.number), Err(4), "{n}");
        }
    }
}
