//! A kept record, and the calls on it: with buffers of every length, with every cause of a refusal, and damaged.

use super::call::{asking, asking_view, opening, reading, writing, Call};
use crate::hours::GAP;
use crate::random::Random;
use crate::record::write_record;
use crate::vectors::made::Made;
use crate::vectors::{has, GREATEST_NUMBER};

/// Bytes before the first coefficient.
const BEFORE_COEFFICIENTS: usize = 7;

/// A table, sound or not, and the bytes of a record that holds it.
pub(super) struct Kept {
    table: Made,
    pub(super) record: Vec<u8>,
}

impl Kept {
    /// The record of as many gaps, with this table's coefficients, each by its lowest 24 bits, and codes put into it.
    pub(super) fn of(table: &Made) -> Kept {
        let gaps = Made::of(&vec![GAP; table.n as usize]);
        let mut record = vec![0; BEFORE_COEFFICIENTS + 3 * gaps.p() + gaps.p() / 2];
        write_record(gaps.n, &gaps.coefficients, &gaps.codes, &mut record).expect("a sound table");
        let (coefficients, codes) = record[BEFORE_COEFFICIENTS..].split_at_mut(3 * gaps.p());
        for (three, coefficient) in coefficients.chunks_exact_mut(3).zip(&table.coefficients) {
            three.copy_from_slice(&coefficient.to_be_bytes()[1..]);
        }
        codes.copy_from_slice(&table.codes[..gaps.p() / 2]);
        Kept { table: table.clone(), record }
    }

    pub(super) fn p(&self) -> usize {
        self.table.p()
    }

    /// Written with so many bytes lent.
    pub(super) fn written(&self, bytes: usize) -> Call {
        writing(self.table.n, &self.table.coefficients, &self.table.codes, bytes)
    }

    /// Read with exactly the buffers needed.
    pub(super) fn read(&self) -> Call {
        reading(&self.record, self.p(), self.p() / 2)
    }

    /// Written and read with exactly the buffers needed.
    pub(super) fn exact(&self) -> Vec<Call> {
        vec![self.written(self.record.len()), self.read()]
    }

    /// Opened, and asked for the first place and the last, and for places from P on.
    pub(super) fn asked(&self) -> Vec<Call> {
        let p = self.p() as u64;
        let places = [0, p - 1, p, p + 1, GREATEST_NUMBER];
        let asked =
            places.into_iter().flat_map(|place| [asking_view(p, place, &self.record), asking(place, &self.record)]);
        [opening(&self.record)].into_iter().chain(asked).collect()
    }

    /// Written and read with longer buffers, whose further content must not matter and must stay.
    pub(super) fn roomy(&self) -> Vec<Call> {
        let coefficients = [&self.table.coefficients[..], &[1_000_001, -5]].concat();
        let codes = [&self.table.codes[..], &[9, 255]].concat();
        vec![
            writing(self.table.n, &coefficients, &codes, self.record.len() + 3),
            reading(&self.record, self.p() + 3, self.p() / 2 + 2),
        ]
    }

    /// Each buffer one too short, and empty.
    pub(super) fn short(&self) -> Vec<Call> {
        let Made { n, coefficients, codes, .. } = &self.table;
        let (p, half, bytes) = (self.p(), self.p() / 2, self.record.len());
        vec![
            writing(*n, &coefficients[..p - 1], codes, bytes),
            writing(*n, coefficients, &codes[..half - 1], bytes),
            writing(*n, coefficients, codes, bytes - 1),
            writing(*n, &[], codes, bytes),
            writing(*n, coefficients, &[], bytes),
            writing(*n, coefficients, codes, 0),
            reading(&self.record, p - 1, half),
            reading(&self.record, p, half - 1),
            reading(&self.record, 0, half),
            reading(&self.record, p, 0),
        ]
    }

    /// Written with every set of causes of a refusal: each n that is none, each buffer one too short, root values that
    /// are unsound and the last code.
    pub(super) fn causes_of_writing(&self) -> Vec<Call> {
        let with = |causes: u32, n: u64| {
            let less = |cause: u32| usize::from(has(causes, cause));
            let mut table = self.table.clone();
            if has(causes, 3) {
                table = table.with_coefficients(0, &[5, 4]);
            }
            if has(causes, 4) {
                table = table.with_code(self.p() / 2 - 1, 9);
            }
            let coefficients = &table.coefficients[..self.p() - less(0)];
            let codes = &table.codes[..self.p() / 2 - less(1)];
            writing(n, coefficients, codes, self.record.len() - less(2))
        };
        let sets = (0..1 << 5).flat_map(|causes| [self.table.n, 0, 16_385].map(|n| with(causes, n)));
        sets.chain([65_536 + self.table.n, GREATEST_NUMBER].map(|n| with(0, n))).collect()
    }

    /// Read with every set of causes of a refusal: those of opening, a lent buffer one too short, an unsound table.
    pub(super) fn causes_of_reading(&self) -> Vec<Call> {
        let with = |causes: u32, codes: usize| {
            let mut record = spoilt(&self.record, causes);
            if has(causes, 7) && record.len() > BEFORE_COEFFICIENTS {
                record[BEFORE_COEFFICIENTS] = 100;
            }
            reading(&record, self.p() - usize::from(has(causes, 6)), codes)
        };
        let half = self.p() / 2;
        (0..1 << 8).flat_map(|causes| [half, half - 1].map(|codes| with(causes, codes))).collect()
    }

    /// Opened, and opened and asked, with every set of causes of a refusal.
    pub(super) fn causes_of_asking(&self) -> Vec<Call> {
        let p = self.p() as u64;
        let with = |record: Vec<u8>| [opening(&record), asking(p - 1, &record), asking(p, &record)];
        (0..1 << 6).flat_map(|causes| with(spoilt(&self.record, causes))).collect()
    }

    /// Read and opened with other versions, other n and other lengths in the record.
    pub(super) fn other_headers(&self) -> Vec<Call> {
        let mut records = Vec::new();
        let mut with = |at: usize, bytes: &[u8]| {
            let mut record = self.record.clone();
            record[at..at + bytes.len()].copy_from_slice(bytes);
            records.push(record);
        };
        for version in [0, 2, 3, 16, 128, 129, 255] {
            with(4, &[version]);
        }
        for n in [0_u16, 1, 3, 4, 255, 256, 258, 512, 16_383, 16_384, 16_385, 16_386, 32_768, 32_770, 65_535] {
            with(5, &n.to_be_bytes());
        }
        for length in [0, 1, 3, 9, 11, 14, 17, 31, 57_347, 266, 2_570, 65_546, 16_777_226, 0x8000_000a, u32::MAX] {
            with(0, &u32::to_be_bytes(length));
        }
        let calls = |record: &Vec<u8>| [reading(record, self.p(), self.p() / 2), opening(record)];
        records.iter().flat_map(calls).collect()
    }

    /// Cut at every length, and with bytes after it: read, opened, asked for the place that the cut goes through and
    /// for the one before it.
    pub(super) fn cut(&self) -> Vec<Call> {
        let (p, whole) = (self.p(), self.record.len());
        let longer = [&self.record[..], &[0, 0, 1]].concat();
        let mut calls = Vec::new();
        for length in 0..=whole + 3 {
            let record = &longer[..length];
            let reached = (length.saturating_sub(BEFORE_COEFFICIENTS) / 3) as u64;
            calls.extend([reading(record, p, p / 2), opening(record), asking(0, record)]);
            calls.push(asking_view(p as u64, reached, record));
            calls.push(asking_view(p as u64, reached.saturating_sub(1), record));
        }
        calls
    }

    /// The record with one bit turned over.
    fn with_bit_flipped(&self, bit: usize) -> Vec<u8> {
        let mut record = self.record.clone();
        record[bit / 8] ^= 128 >> (bit % 8);
        record
    }

    /// Every bit of the record turned over: read, and in the first 14 bytes opened and asked too.
    pub(super) fn flipped(&self) -> Vec<Call> {
        let mut calls = Vec::new();
        for bit in 0..8 * self.record.len() {
            let record = self.with_bit_flipped(bit);
            calls.push(reading(&record, self.p(), self.p() / 2));
            if bit < 8 * 14 {
                let place = (bit / 8).saturating_sub(BEFORE_COEFFICIENTS) / 3;
                calls.extend([opening(&record), asking(place as u64, &record)]);
            }
        }
        calls
    }

    /// Some bits turned over, one at a time: read alone.
    pub(super) fn flipped_anywhere(&self, random: &mut Random) -> Vec<Call> {
        let bits = (0..36).map(|_| random.below(8 * self.record.len() as u64) as usize);
        bits.map(|bit| reading(&self.with_bit_flipped(bit), self.p(), self.p() / 2)).collect()
    }
}

/// The record with causes of opening's refusals: version, n, length, a byte too few, bytes too many (one too many where
/// there was one too few), under 7 bytes.
fn spoilt(record: &[u8], causes: u32) -> Vec<u8> {
    let mut bytes = record.to_vec();
    if has(causes, 0) {
        bytes[4] = 2;
    }
    if has(causes, 1) {
        bytes[5..7].copy_from_slice(&16_385_u16.to_be_bytes());
    }
    if has(causes, 2) {
        bytes[3] += 1;
    }
    if has(causes, 3) {
        bytes.pop();
    }
    if has(causes, 4) {
        bytes.extend([9, 9]);
    }
    if has(causes, 5) {
        bytes.truncate(6);
    }
    bytes
}
