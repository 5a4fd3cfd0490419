//! The choice of calls on records.

mod call;
mod kept;

use super::made::{held, mixed, Made, SEVEN_HOURS};
use super::GREATEST_NUMBER;
use crate::hours::{GAP, GREATEST_READING};
use crate::random::Random;
use call::{asking, asking_view};
use kept::Kept;

pub use call::Call;

const SEED: u64 = 21;

/// The lengths of which every buffer is tried too short, exact and longer.
const LENGTHS: [usize; 8] = [1, 2, 3, 4, 5, 8, 9, 17];

/// Coefficients at the edges of what one, two and three bytes hold, and at those of details and marks.
const EDGES: [i32; 32] = [
    -8_388_608, -8_388_607, -2_000_001, -2_000_000, -1_999_999, -1_000_001, -1_000_000, -65_537, -65_536, -65_535,
    -32_769, -32_768, -257, -256, -255, -1, 0, 1, 127, 128, 255, 256, 32_767, 32_768, 65_535, 65_536, 1_000_000,
    2_000_000, 2_000_001, 2_000_003, 2_000_004, 8_388_607,
];

/// Numbers that three bytes do not hold; the first three have the lowest 24 bits of 0, 5 and −5.
const TOO_WIDE: [i32; 7] = [16_777_216, 16_777_221, -16_777_221, 8_388_608, -8_388_609, i32::MAX, -i32::MAX];

/// All calls, in their order in the text.
pub fn calls() -> Vec<Call> {
    let mut random = Random::new(SEED);
    let two = Kept::of(&Made::of(&[500, -1]));
    let seven = Kept::of(&Made::of(&SEVEN_HOURS));
    let mut calls = extreme_series();
    for n in LENGTHS {
        let kept = Kept::of(&Made::of(&mixed(&mut random, n)));
        calls.extend(kept.exact());
        calls.extend(kept.asked());
        calls.extend(kept.roomy());
        calls.extend(kept.short());
    }
    for n in [1, 2, 3, 7] {
        let table = Made::of(&mixed(&mut random, n));
        calls.extend(table.damaged().iter().chain(&too_wide(&table)).flat_map(|table| Kept::of(table).exact()));
    }
    calls.extend(unsound_anywhere(&mut random));
    calls.extend(two.causes_of_writing());
    calls.extend(Kept::of(&Made::of(&[3, GAP, 5])).causes_of_writing());
    calls.extend(two.causes_of_reading());
    calls.extend(two.causes_of_asking());
    calls.extend(two.other_headers());
    calls.extend([&two, &seven].into_iter().flat_map(Kept::cut));
    calls.extend([&two, &seven].into_iter().flat_map(Kept::flipped));
    calls.extend(Kept::of(&Made::of(&mixed(&mut random, 31))).flipped_anywhere(&mut random));
    calls.extend(edges());
    calls.extend(views(&two));
    calls.extend(every_p(&mut random));
    calls
}

/// Document 01's numbers to hold to, the least and the greatest details, and each mark.
fn extreme_series() -> Vec<Call> {
    let greatest = GREATEST_READING;
    let series: [&[i32]; 10] = [
        &[500],
        &[7, 7],
        &[7, 9],
        &[9, 7],
        &[GAP; 3],
        &SEVEN_HOURS,
        &[-greatest, -greatest, greatest, greatest],
        &[greatest, greatest, -greatest],
        &[-greatest, GAP, GAP],
        &[GAP, GAP, -1, greatest],
    ];
    series
        .iter()
        .map(|series| Kept::of(&Made::of(series)))
        .flat_map(|kept| [kept.exact(), kept.asked()].concat())
        .collect()
}

/// A table with a number that three bytes do not hold at each of its first places.
fn too_wide(table: &Made) -> Vec<Made> {
    let places = 0..table.p().min(4);
    places.flat_map(|place| TOO_WIDE.map(|number| table.with_coefficients(place, &[number]))).collect()
}

/// Larger tables with one coefficient or one code changed, and one of 16 readings told to be of fewer hours.
fn unsound_anywhere(random: &mut Random) -> Vec<Call> {
    let mut tables = Vec::new();
    for n in [9, 17] {
        let table = Made::of(&mixed(random, n));
        tables.extend((0..12).map(|_| table.damaged_anywhere(random)));
    }
    let full = Made::of(&[5; 16]);
    tables.extend((9..16).map(|fewer| full.told(fewer)));
    tables.iter().flat_map(|table| Kept::of(table).exact()).collect()
}

/// A record of coefficients at the edges of what bytes hold, opened and asked for each, though its table is unsound.
fn edges() -> Vec<Call> {
    let record = Kept::of(&Made::of(&[0; 32]).with_coefficients(0, &EDGES)).record;
    (0..=32).map(|place| asking(place, &record)).collect()
}

/// Views that have more places than their bytes reach, or fewer, on a record and on bytes that are none.
fn views(kept: &Kept) -> Vec<Call> {
    let rubbish: Vec<u8> = (0..40).map(|k| 255 - 6 * k).collect();
    let records = [&kept.record, &rubbish[..0], &rubbish[..6], &rubbish[..7], &rubbish[..9], &rubbish[..10], &rubbish];
    let mut calls = Vec::new();
    for record in records {
        for p in [0, 1, 2, 11, 12, 16_384, GREATEST_NUMBER] {
            let places = [0, 1, 2, 10, 11, 16_383, 16_384, GREATEST_NUMBER];
            calls.extend(places.map(|place| asking_view(p, place, record)));
        }
    }
    calls
}

/// A record of every P, written and read: of the four largest only the last both ways, since they are long.
fn every_p(random: &mut Random) -> Vec<Call> {
    let mut calls = Vec::new();
    for l in 1..=14 {
        let n = if l % 2 == 0 { 1 << l } else { (1 << l) - 1 };
        let kept = Kept::of(&Made::of(&held(random, n, GREATEST_READING)));
        if l != 11 && l != 13 {
            calls.push(kept.written(kept.record.len()));
        }
        if l != 12 {
            calls.push(kept.read());
        }
        if l == 7 {
            calls.extend(kept.asked());
        }
        if l == 12 {
            calls.push(asking(kept.p() as u64 - 1, &kept.record));
        }
    }
    calls
}
