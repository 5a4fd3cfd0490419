//! The choice of calls on logs of the old scales.

mod call;

use super::{before, has};
use crate::hours::{is_reading, GREATEST_READING, MOST_HOURS};
use crate::random::Random;

pub use call::Call;

const SEED: u64 = 51;

/// Lengths of drawn logs.
const LENGTHS: [usize; 8] = [1, 2, 3, 5, 8, 9, 33, 200];

/// The greatest start. The program reads no number below minus this.
const FAR: i32 = i32::MAX;

/// All calls, in their order in the text.
pub fn calls() -> Vec<Call> {
    let mut random = Random::new(SEED);
    let mut calls = numbers_to_hold_to();
    calls.extend(steps());
    calls.extend(starts());
    calls.extend((0..1 << 5).map(with_causes));
    calls.extend(bad_flags());
    for n in LENGTHS {
        let log = Log::drawn(&mut random, n, 3);
        calls.extend([log.exact(), log.roomy()]);
        calls.extend(log.short());
        calls.push(Log::drawn(&mut random, n, 1).exact());
        calls.push(log.out_of_range(&mut random).exact());
    }
    calls.extend(bad_lengths());
    calls.extend(longest());
    calls
}

/// A log with its start. Where no hour was recorded, its count goes with no weight.
#[derive(Clone)]
struct Log {
    counts: Vec<u16>,
    flags: Vec<u8>,
    start: i32,
}

impl Log {
    fn of(counts: &[u16], flags: &[u8], start: i32) -> Log {
        Log { counts: counts.to_vec(), flags: flags.to_vec(), start }
    }

    /// All hours recorded.
    fn recorded(counts: &[u16], start: i32) -> Log {
        Log::of(counts, &vec![1; counts.len()], start)
    }

    /// The log of true weights, of which about one hour in so many was recorded.
    fn drawn(random: &mut Random, n: usize, one_in: u64) -> Log {
        let mut weight = random.between(-GREATEST_READING, GREATEST_READING);
        let mut log = Log::of(&[], &[], weight);
        for _ in 0..n {
            let recorded = random.once_in(one_in);
            log.counts.push(if recorded { count_of(weight) } else { random.draw() as u16 });
            log.flags.push(u8::from(recorded));
            let step = random.between(-32_768, 32_767);
            if recorded && is_reading(weight + step) {
                weight += step;
            }
        }
        log
    }

    /// The same with the start at an end of the range of readings, so that weights leave it, and often come back.
    fn out_of_range(&self, random: &mut Random) -> Log {
        let start = random.one_of(&[-GREATEST_READING, GREATEST_READING]);
        let by = count_of(start).wrapping_sub(count_of(self.start));
        let counts = self.counts.iter().map(|count| count.wrapping_add(by)).collect();
        Log { counts, start, ..self.clone() }
    }

    fn n(&self) -> usize {
        self.counts.len()
    }

    fn called(&self, n: u64, room: usize) -> Call {
        Call { n, start: self.start, counts: self.counts.clone(), flags: self.flags.clone(), hours: before(room) }
    }

    /// With exactly the buffers needed.
    fn exact(&self) -> Call {
        self.called(self.n() as u64, self.n())
    }

    /// With longer buffers, whose further content must not matter and must stay.
    fn roomy(&self) -> Call {
        let mut longer = self.clone();
        longer.counts.extend([0, 65_535]);
        longer.flags.extend([2, 255, 1]);
        longer.called(self.n() as u64, self.n() + 3)
    }

    /// Each buffer one too short, with a bad flag too, which is not looked at.
    fn short(&self) -> Vec<Call> {
        let (n, last) = (self.n() as u64, self.n() - 1);
        let mut bad = self.clone();
        bad.flags[0] = 2;
        let counts = Log { counts: self.counts[..last].to_vec(), ..bad.clone() };
        let flags = Log { flags: self.flags[..last].to_vec(), ..self.clone() };
        vec![counts.called(n, self.n()), flags.called(n, self.n()), bad.called(n, last)]
    }
}

/// A weight modulo 65,536.
fn count_of(weight: i32) -> u16 {
    weight.rem_euclid(65_536) as u16
}

/// A step over the wrap both ways, half a turn, a gap between, a start below zero, nothing recorded, a start that is no
/// reading, and weights that leave the range and come back.
fn numbers_to_hold_to() -> Vec<Call> {
    let logs = [
        Log::recorded(&[65_530, 4], 65_530),
        Log::recorded(&[4, 65_530], 65_540),
        Log::recorded(&[40_000, 7_232, 39_999], 40_000),
        Log::recorded(&[0, 32_768, 0], 0),
        Log::of(&[0, 32_768, 0], &[1, 0, 1], 0),
        Log::recorded(&[65_535, 0], -1),
        Log::recorded(&[1], -1),
        Log::of(&[1, 2, 3], &[0; 3], -FAR),
        Log::recorded(&[16_961], 1_000_001),
        Log::recorded(&[16_960, 16_961, 16_960], GREATEST_READING),
        Log::recorded(&[48_576, 48_575, 48_576], -GREATEST_READING),
    ];
    logs.iter().map(Log::exact).collect()
}

/// Every step between counts at the edges.
fn steps() -> Vec<Call> {
    let counts = [0, 1, 32_767, 32_768, 65_535];
    let pairs = counts.iter().flat_map(|&earlier| counts.iter().map(move |&later| [earlier, later]));
    pairs.map(|pair| Log::recorded(&pair, i32::from(pair[0]) - 65_536).exact()).collect()
}

/// Starts at the edges, with the count that goes with each and with the next; recorded at the second of three hours,
/// and at none.
fn starts() -> Vec<Call> {
    let starts = [0, -1, -65_536, -65_537, GREATEST_READING, 1_000_001, -GREATEST_READING, -1_000_001, FAR, -FAR];
    let mut calls = Vec::new();
    for start in starts {
        let count = count_of(start);
        for (count, flag) in [(count, 1), (count.wrapping_add(1), 1), (count, 0)] {
            calls.push(Log::of(&[7, count, 9], &[0, flag, 0], start).exact());
        }
    }
    calls
}

/// Three hours with a set of causes: n, a buffer short, a flag, the start, and a weight out of range.
fn with_causes(causes: u32) -> Call {
    let mut log = Log::recorded(&[16_959, 16_960, 16_958], 999_999);
    if has(causes, 2) {
        log.flags[2] = 3;
    }
    if has(causes, 3) {
        log.start += 1;
    }
    if has(causes, 4) {
        log.counts[1] = 16_961;
    }
    let n = if has(causes, 0) { MOST_HOURS + 1 } else { 3 };
    log.called(n, if has(causes, 1) { 2 } else { 3 })
}

/// Each sort of byte that is no flag, at each hour, and the last hour's bad too: the least such hour is told.
fn bad_flags() -> Vec<Call> {
    let mut calls = Vec::new();
    for flag in [2, 3, 48, 49, 128, 255] {
        for hour in 0..4 {
            let mut log = Log::of(&[5, 6, 7, 8], &[1, 0, 1, 9], 5);
            log.flags[hour] = flag;
            calls.push(log.exact());
        }
    }
    calls
}

/// Numbers that are no n, with buffers that hold something and with empty ones.
fn bad_lengths() -> Vec<Call> {
    let numbers = [0, MOST_HOURS + 1, 32_768, 65_539, 4_294_967_299];
    let log = Log::recorded(&[5, 6, 7], 5);
    numbers.iter().flat_map(|&n| [log.called(n, 3), Log::of(&[], &[], 5).called(n, 0)]).collect()
}

/// The longest log: few counts in long stretches, so that it is short as text; the same with its last flag bad, and
/// with its last weight out of range.
fn longest() -> Vec<Call> {
    let mut log = Log::of(&[], &[], 60_000);
    for (hours, count, flag) in
        [(3_000, 60_000, 1), (5_000, 4_000, 1), (2_384, 9, 0), (5_999, 50_000, 1), (1, 17_233, 1)]
    {
        log.counts.resize(log.n() + hours, count);
        log.flags.resize(log.n(), flag);
    }
    let mut bad_flag = log.clone();
    *bad_flag.flags.last_mut().expect("an hour") = 2;
    let too_low = Log { start: log.start - 16 * 65_536, ..log.clone() };
    vec![log.exact(), bad_flag.exact(), too_low.exact()]
}
