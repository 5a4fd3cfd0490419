//! Logs of the old scales as they are drawn: of weights, as a scale would have counted them, changed after that, and
//! invented. What stands at the edges is listed besides.

use second::hours::{is_reading, GREATEST_READING};

use crate::drawing::{Drawing, Topic};
use crate::numbers::{draw_held, MOST};

/// A count is a weight modulo this many grams, one turn.
const TURN: i32 = 65_536;

/// The count of a weight.
fn count_of(weight: i32) -> u16 {
    weight.rem_euclid(TURN) as u16
}

/// A log, and the start that is told with it.
#[derive(Clone, Debug, PartialEq, Eq)]
pub struct Log {
    /// The count of each hour.
    pub counts: Vec<u16>,
    /// The flag of each hour.
    pub flags: Vec<u8>,
    /// The weight at the first recorded hour.
    pub start: i32,
}

impl Log {
    /// The log of these weights, `None` where the hour was not recorded. There it has the count 9, and if that is so in
    /// all hours, the start is 9 too.
    fn counted(weights: &[Option<i32>]) -> Log {
        Log {
            counts: weights.iter().map(|weight| weight.map_or(9, count_of)).collect(),
            flags: weights.iter().map(|weight| u8::from(weight.is_some())).collect(),
            start: weights.iter().copied().flatten().next().unwrap_or(9),
        }
    }

    /// The log of so many hours, all recorded, with the same step from each to the next.
    pub fn climbing(start: i32, step: i32, hours: usize) -> Log {
        let weight = |hour: usize| start.wrapping_add(step.wrapping_mul(hour as i32));
        Log::counted(&(0..hours).map(|hour| Some(weight(hour))).collect::<Vec<_>>())
    }

    /// The hour that the start is the weight of.
    pub fn first_recorded(&self) -> Option<usize> {
        self.flags.iter().position(|&flag| flag == 1)
    }

    fn starting(self, start: i32) -> Log {
        Log { start, ..self }
    }
}

/// What is drawn of old logs: how the weight changes between recorded hours, or that there is none, and what is changed
/// after that.
#[rustfmt::skip]
pub const FORMS: Topic = Topic {
    name: "old log",
    drawn: &[
        "small changes", "any changes", "greatest changes", "half turns", "nothing recorded", "any counts", "bad flags",
        "turns off", "another start",
    ],
};

/// A log of n hours: that of weights, or invented; at times it is changed after that. A note is taken of each.
pub fn draw_log(random: &mut Drawing, n: usize) -> Log {
    let mut log = if random.once_in(12) { draw_invented(random, n) } else { draw_counted(random, n) };
    if random.once_in(8) {
        spoil_flags(random, &mut log.flags);
    }
    match random.below(10) {
        0 => {
            random.note("turns off");
            let turns = random.one_of(&[-32_768, -16, -1, 1, 15, 32_767]);
            log.start = log.start.wrapping_add(turns * TURN);
        }
        1 => {
            random.note("another start");
            let any = random.draw() as i32;
            log.start = random.one_of(&[log.start ^ 1, log.start ^ 0x8000, log.start.wrapping_neg(), any]);
        }
        _ => {}
    }
    log
}

/// Any counts, with a start that goes with the first recorded one.
fn draw_invented(random: &mut Drawing, n: usize) -> Log {
    random.note("any counts");
    let flags = (0..n).map(|_| random.below(2) as u8).collect();
    let log = Log { counts: draw_held(random, n), flags, start: 0 };
    let first = log.first_recorded().map_or(0, |hour| log.counts[hour]);
    log.starting(i32::from(first) + TURN * random.between(-16, 15))
}

/// The log of drawn weights. Counts of hours that were not recorded are drawn, and if all are so, the start.
fn draw_counted(random: &mut Drawing, n: usize) -> Log {
    let weights = draw_weights(random, n);
    let mut log = Log::counted(&weights);
    let any: Vec<u16> = draw_held(random, n);
    for hour in (0..n).filter(|&hour| weights[hour].is_none()) {
        log.counts[hour] = any[hour];
    }
    let any_start = random.draw() as i32;
    if log.first_recorded().is_none() {
        return log.starting(any_start);
    }
    log
}

/// Weights at some of n hours, at all of them or at none. Mostly they stay in the range of readings.
fn draw_weights(random: &mut Drawing, n: usize) -> Vec<Option<i32>> {
    if random.once_in(16) {
        random.note("nothing recorded");
        return vec![None; n];
    }
    let (form, least, greatest) = random.one_of(&[
        ("small changes", -20, 21),
        ("any changes", -32_768, 32_767),
        ("greatest changes", 32_766, 32_767),
        ("half turns", -32_768, -32_767),
    ]);
    random.note(form);
    let (one_in, stays) = (random.one_of(&[1, 1, 2, 5, 40]), !random.once_in(4));
    let mut weight = draw_first(random);
    let mut weights = vec![None; n];
    for held in &mut weights {
        if random.once_in(one_in) {
            *held = Some(weight);
            let changed = weight + random.between(least, greatest);
            weight = if stays && !is_reading(changed) { weight } else { changed };
        }
    }
    weights
}

/// A first weight: any reading, an end of their range, or close to where the count starts again.
fn draw_first(random: &mut Drawing) -> i32 {
    let any = random.between(-GREATEST_READING, GREATEST_READING);
    let wrap = TURN * random.between(-15, 15) + random.between(-2, 2);
    random.one_of(&[any, any, wrap, 0, -GREATEST_READING, GREATEST_READING])
}

/// Puts bytes that are no flags into up to three hours.
fn spoil_flags(random: &mut Drawing, flags: &mut [u8]) {
    if flags.is_empty() {
        return;
    }
    random.note("bad flags");
    for _ in 0..1 + random.below(3) {
        let hour = random.below(flags.len() as u64) as usize;
        flags[hour] = 2 + random.below(254) as u8;
    }
}

/// Logs at the edges.
pub fn edge_logs() -> Vec<Log> {
    [small_logs(), edge_steps(), edge_starts(), bad_flags(), longest_logs()].concat()
}

/// Every log of up to three hours with counts at the edges, each flag or a bad one, and starts that go with the first
/// recorded hour, in the range of readings and out of it, or that do not.
fn small_logs() -> Vec<Log> {
    const COUNTS: [u16; 4] = [0, 32_767, 32_768, 65_535];
    let hour = |held: usize| (COUNTS[held % 4], (held / 4) as u8);
    let mut logs = Vec::new();
    for n in 1..=3_u32 {
        for held in 0..12_usize.pow(n) {
            let (counts, flags) = (0..n).map(|place| hour(held / 12_usize.pow(place) % 12)).unzip();
            let log = Log { counts, flags, start: 0 };
            let first = log.first_recorded().map_or(0, |hour| i32::from(log.counts[hour]));
            let starts = [first, first - TURN, first + 15 * TURN, first - 16 * TURN, first + 1, first + TURN / 2];
            logs.extend(starts.map(|start| log.clone().starting(start)));
        }
    }
    logs
}

/// Every step between counts at the edges, from weights of every turn that readings reach, and of one beyond; at once,
/// and over an hour that was not recorded.
fn edge_steps() -> Vec<Log> {
    let counts = [0, 1, 16_960, 32_766, 32_767, 32_768, 32_769, 48_576, 65_534, 65_535];
    let pairs = counts.iter().flat_map(|&earlier| counts.iter().map(move |&later| (earlier, later)));
    let mut logs = Vec::new();
    for ((earlier, later), turns) in pairs.flat_map(|pair| (-17..=16).map(move |turns| (pair, turns))) {
        let start = TURN * turns + i32::from(earlier);
        logs.push(Log { counts: vec![earlier, later], flags: vec![1, 1], start });
        logs.push(Log { counts: vec![later, earlier, 77, later, 77], flags: vec![0, 1, 0, 1, 0], start });
    }
    logs
}

/// Starts at the edges, with the count that goes with each and with others; recorded first, later, and not at all.
fn edge_starts() -> Vec<Log> {
    let ends =
        [i32::MIN, -2_000_003, -GREATEST_READING, -TURN, -TURN / 2, 0, TURN / 2, TURN, GREATEST_READING, i32::MAX];
    let mut logs = Vec::new();
    for start in ends.iter().flat_map(|end| [-1, 0, 1].map(|by| end.saturating_add(by))) {
        for off in [0, 1, 32_768, 65_535] {
            for flags in [[1, 1, 1], [0, 1, 0], [0, 0, 1], [0, 0, 0]] {
                let count = count_of(start).wrapping_add(off);
                logs.push(Log { counts: vec![count; 3], flags: flags.to_vec(), start });
            }
        }
    }
    logs
}

/// Every byte as a flag in each hour of three, with a bad one in the last.
fn bad_flags() -> Vec<Log> {
    let mut logs = Vec::new();
    for (flag, hour) in (0..=255).flat_map(|flag| [0, 1, 2].map(|hour| (flag, hour))) {
        let mut log = Log { counts: vec![5, 6, 7], flags: vec![1, 0, 9], start: 5 };
        log.flags[hour] = flag;
        logs.push(log);
    }
    logs
}

/// The longest log, with the same step throughout, from the ends of what a start can be and from readings; recorded at
/// its two ends alone; with a bad flag at its end.
fn longest_logs() -> Vec<Log> {
    let starts = [i32::MIN, -GREATEST_READING, 0, GREATEST_READING, i32::MAX];
    let steps = [-32_768, -61, 0, 61, 32_767];
    let steps = starts.into_iter().flat_map(|start| steps.map(|step| (start, step)));
    let mut logs: Vec<Log> = steps.map(|(start, step)| Log::climbing(start, step, MOST)).collect();
    let mut ends = vec![None; MOST];
    (ends[0], ends[MOST - 1]) = (Some(-7), Some(32_760));
    logs.push(Log::counted(&ends));
    let mut bad = Log::climbing(0, 1, MOST);
    bad.flags[MOST - 1] = 2;
    logs.push(bad);
    logs
}

#[cfg(test)]
mod tests {
    use std::collections::BTreeSet;

    use second::hours::GAP;

    use super::*;

    /// The log of weights that are readings, each step one that a log tells, is rebuilt to them.
    #[test]
    fn counted_logs_go_with_their_weights() {
        let mut random = Drawing::new(1);
        let (mut in_range, mut back) = (0, 0);
        for _ in 0..2_000 {
            let n = 1 + random.below(80) as usize;
            let weights = draw_weights(&mut random, n);
            let Log { counts, flags, start } = Log::counted(&weights);
            let mut hours = vec![77; n];
            let rebuilt = second::rebuild(n as u64, &counts, &flags, start, &mut hours);
            if weights.iter().flatten().all(|&weight| is_reading(weight)) {
                in_range += 1;
                let expected: Vec<i32> = weights.iter().map(|weight| weight.unwrap_or(GAP)).collect();
                assert_eq!((rebuilt, hours), (Ok(()), expected));
            } else {
                let left = weights.iter().position(|weight| weight.is_some_and(|weight| !is_reading(weight)));
                assert_eq!(
                    rebuilt.map_err(|refusal| (refusal.number, refusal.place as usize)),
                    Err((2, left.unwrap()))
                );
                let after = &weights[left.unwrap()..];
                back += usize::from(after.iter().flatten().any(|&weight| is_reading(weight)));
            }
        }
        assert!(in_range > 1_000 && back > 10, "{in_range} {back}");
    }

    #[test]
    fn every_form_is_drawn() {
        let mut random = Drawing::new(2);
        let mut forms = BTreeSet::new();
        for _ in 0..1_000 {
            let n = 1 + random.below(20) as usize;
            let Log { counts, flags, .. } = draw_log(&mut random, n);
            assert_eq!((counts.len(), flags.len()), (n, n));
            forms.extend(random.notes());
        }
        assert_eq!(forms, BTreeSet::from_iter(FORMS.drawn.iter().copied()));
    }
}
