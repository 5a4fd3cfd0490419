//! What the tests of the sides share: both written stores, the second program's words, and drawn series.

use bench::words::{Answer, Column, Finished, LowHigh, Reading, Refusal, Stopped, Summary};
use bench::words::{GAP, GREATEST_READING, NEITHER, ONLY_LEFT, ONLY_RIGHT};
use bench::{fast, plain};
use second::random::Random;

pub type Make = fn(usize, &[i32], &mut [i32], &mut [u8]) -> Result<(), Refusal>;
pub type TurnBack = fn(usize, &[i32], &[u8], &mut [i32]) -> Result<(), Refusal>;
pub type WriteRecord = fn(usize, &[i32], &[u8], &mut [u8]) -> Result<usize, Refusal>;
pub type ReadRecord = fn(&[u8], &mut [i32], &mut [u8]) -> Result<usize, Refusal>;
pub type DrawStopped = fn(usize, &[i32], &[u8], Column, usize) -> Result<Stopped, Refusal>;
pub type DrawFinished = fn(usize, &[i32], &[u8], Column) -> Result<Finished, Refusal>;
pub type ChangeDay = fn(usize, &[i32], &[u8], usize) -> Result<Option<i32>, Refusal>;

pub const MAKE: [Make; 2] = [plain::make, fast::make];
pub const TURN_BACK: [TurnBack; 2] = [plain::turn_back, fast::turn_back];
pub const WRITE_RECORD: [WriteRecord; 2] = [plain::write_record, fast::write_record];
pub const READ_RECORD: [ReadRecord; 2] = [plain::read_record, fast::read_record];
pub const STOPPED: [DrawStopped; 2] = [plain::stopped, fast::stopped];
pub const FINISHED: [DrawFinished; 2] = [plain::finished, fast::finished];
pub const DAY_CHANGE: [ChangeDay; 2] = [plain::day_change, fast::day_change];

/// A refusal in the shared words.
pub fn refusal(second::Refusal { number, place }: second::Refusal) -> Refusal {
    Refusal { number, place: place as usize }
}

pub fn range(range: Option<second::LowHigh>) -> Option<LowHigh> {
    range.map(|second::LowHigh { low, high }| LowHigh { low, high })
}

pub fn answer(answer: second::Answer) -> Answer {
    let reading = |of: second::Reading| Reading { hour: of.hour as usize, grams: of.grams };
    answer.map(|second::Found { first, last, low, high }| Summary {
        first: reading(first),
        last: reading(last),
        low,
        high,
    })
}

pub fn second_column(Column { a, b, w, k }: Column) -> second::Column {
    let [a, b, w, k] = [a, b, w, k].map(|number| number as u64);
    second::Column { a, b, w, k }
}

/// P for a number of hours that is not 0.
pub fn places(n: usize) -> usize {
    n.next_power_of_two().max(2)
}

/// Bytes of a record of P places.
pub fn record_size(p: usize) -> usize {
    7 + 3 * p + p / 2
}

/// A series with none, few, many or only gaps.
pub fn draw_series(random: &mut Random, n: usize) -> Vec<i32> {
    let gaps = random.one_of(&[1, 2, 5, 100]);
    let most = random.one_of(&[1, 3, 50_000, GREATEST_READING]);
    (0..n).map(|_| if random.once_in(gaps) { GAP } else { random.between(-most, most) }).collect()
}

/// The table that the second program makes of a series.
pub fn table_of(readings: &[i32]) -> (Vec<i32>, Vec<u8>) {
    let p = places(readings.len());
    let (mut coefficients, mut codes) = (vec![0; p], vec![0; p / 2]);
    assert_eq!(second::make(readings.len() as u64, readings, &mut coefficients, &mut codes), Ok(()));
    (coefficients, codes)
}

/// Changes one place of a table: a coefficient to a mark, to another of any size or a little, or a code.
pub fn damage(random: &mut Random, coefficients: &mut [i32], codes: &mut [u8]) {
    let place = random.below(coefficients.len() as u64) as usize;
    let coefficient = &mut coefficients[place];
    match random.below(6) {
        0 => *coefficient = random.one_of(&[ONLY_LEFT, ONLY_RIGHT, NEITHER, NEITHER + 1, i32::MIN, i32::MAX]),
        1 => *coefficient = random.draw() as i32,
        2 | 3 => *coefficient = coefficient.wrapping_add(random.between(-2, 2)),
        _ => codes[place / 2] = random.below(6) as u8,
    }
}

/// Changes both details of one node to one mark, which can make a sound table of another series.
pub fn mark(random: &mut Random, coefficients: &mut [i32]) {
    let place = 2 * random.below(coefficients.len() as u64 / 2) as usize;
    let mark = random.one_of(&[ONLY_LEFT, ONLY_RIGHT, NEITHER]);
    coefficients[place..][..2].fill(mark);
}
