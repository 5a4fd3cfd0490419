//! Logs of the old scales: how document 02 is read, by examples; every small log; true weights, which come back.

mod common;

use std::collections::HashMap;

use common::refusal;
use second::hours::{is_reading, GAP};
use second::random::Random;
use second::{rebuild, Refusal};

/// A log of all these hours, rebuilt.
fn rebuilt(counts: &[u16], flags: &[u8], start: i32) -> Result<Vec<i32>, Refusal> {
    let mut hours = vec![77; counts.len()];
    let given = rebuild(counts.len() as u64, counts, flags, start, &mut hours);
    if given.is_err() {
        assert_eq!(hours, vec![77; counts.len()], "a refused call wrote");
    }
    given.map(|()| hours)
}

#[test]
fn a_step_over_the_wrap() {
    assert_eq!(rebuilt(&[65_530, 4], &[1, 1], 65_530), Ok(vec![65_530, 65_540]));
    assert_eq!(rebuilt(&[4, 65_530], &[1, 1], 65_540), Ok(vec![65_540, 65_530]));
    assert_eq!(rebuilt(&[65_535, 0, 65_535], &[1, 1, 1], -1), Ok(vec![-1, 0, -1]));
}

#[test]
fn half_a_turn_is_down() {
    for [earlier, later] in [[0, 32_768], [32_768, 0], [65_535, 32_767], [12_345, 45_113]] {
        let start = i32::from(earlier);
        assert_eq!(rebuilt(&[earlier, later], &[1, 1], start), Ok(vec![start, start - 32_768]));
    }
    assert_eq!(rebuilt(&[0, 32_767], &[1, 1], 0), Ok(vec![0, 32_767]));
    assert_eq!(rebuilt(&[0, 32_769], &[1, 1], 0), Ok(vec![0, -32_767]));
}

/// Two halves of a turn are a whole one, and not none: what stands between two hours changes what they hold.
#[test]
fn neighbours_are_recorded_hours() {
    assert_eq!(rebuilt(&[0, 32_768, 0], &[1, 1, 1], 0), Ok(vec![0, -32_768, -65_536]));
    assert_eq!(rebuilt(&[0, 32_768, 0], &[1, 0, 1], 0), Ok(vec![0, GAP, 0]));
    assert_eq!(rebuilt(&[9, 0, 32_768, 0, 5], &[0, 1, 0, 1, 0], 0), Ok(vec![GAP, 0, GAP, 0, GAP]));
}

#[test]
fn nothing_recorded_is_all_gaps_whatever_the_start() {
    for start in [0, 1, -1, 1_000_001, GAP, i32::MIN, i32::MAX] {
        assert_eq!(rebuilt(&[5, 6, 7], &[0, 0, 0], start), Ok(vec![GAP; 3]));
        assert_eq!(rebuilt(&[5, 6, 7], &[0, 0, 3], start), Err(refusal(14, 2)));
    }
}

/// Modulo is that of mathematics, of every start; and the start is tested like every weight after it.
#[test]
fn the_start_is_the_first_weight() {
    assert_eq!(rebuilt(&[7, 65_535], &[0, 1], -1), Ok(vec![GAP, -1]));
    assert_eq!(rebuilt(&[7, 1], &[0, 1], -1), Err(refusal(15, 0)));
    for (start, count) in [(i32::MIN, 0), (i32::MAX, 65_535), (1_000_001, 16_961), (-1_000_001, 48_575)] {
        assert_eq!(rebuilt(&[7, count, count], &[0, 1, 1], start), Err(refusal(2, 1)));
        assert_eq!(rebuilt(&[7, count ^ 1, count], &[0, 1, 1], start), Err(refusal(15, 0)));
    }
    assert_eq!(rebuilt(&[16_960], &[1], 1_000_000), Ok(vec![1_000_000]));
    assert_eq!(rebuilt(&[48_576], &[1], -1_000_000), Ok(vec![-1_000_000]));
}

#[test]
fn a_weight_that_leaves_the_range_is_told_though_it_comes_back() {
    assert_eq!(rebuilt(&[16_960, 0, 16_961, 16_960], &[1, 0, 1, 1], 1_000_000), Err(refusal(2, 2)));
    assert_eq!(rebuilt(&[48_576, 48_575, 48_576], &[1, 1, 1], -1_000_000), Err(refusal(2, 1)));
}

/// The longest log, half a turn down in every hour, and up by as much as a step can be.
#[test]
fn the_longest_log_has_an_answer() {
    let counts = |step: u16| (0..16_384_u16).map(|hour| hour.wrapping_mul(step)).collect::<Vec<u16>>();
    assert_eq!(rebuilt(&counts(32_768), &[1; 16_384], 0), Err(refusal(2, 31)));
    assert_eq!(rebuilt(&counts(32_767), &[1; 16_384], 0), Err(refusal(2, 31)));
    assert_eq!(rebuilt(&counts(32_768), &[1; 16_384], i32::MIN), Err(refusal(2, 0)));
    assert_eq!(rebuilt(&counts(0), &[1; 16_384], 65_536), Ok(vec![65_536; 16_384]));
}

/// True weights at some hours, each step between neighbours as document 02 asks it.
fn true_weights(random: &mut Random, n: usize) -> Vec<Option<i32>> {
    let recorded = 1 + random.below(4);
    let steps = random.one_of(&[[-3, 3], [-32_768, 32_767], [-32_768, -32_768], [32_767, 32_767], [30_000, 32_767]]);
    let mut weight = random.between(-1_000_000, 1_000_000);
    let mut weights = Vec::new();
    for _ in 0..n {
        if !random.once_in(recorded) {
            weights.push(None);
            continue;
        }
        weights.push(Some(weight));
        let step = random.between(steps[0], steps[1]);
        weight = if is_reading(weight + step) { weight + step } else { weight };
    }
    weights
}

#[test]
fn true_weights_come_back() {
    let mut random = Random::new(5);
    let mut over_the_wrap = 0;
    for _ in 0..20_000 {
        let n = 1 + random.below(40) as usize;
        let weights = true_weights(&mut random, n);
        let count = |weight: Option<i32>| weight.map(|weight| weight.rem_euclid(65_536) as u16);
        let counts: Vec<u16> = weights.iter().map(|&of| count(of).unwrap_or(random.draw() as u16)).collect();
        let flags: Vec<u8> = weights.iter().map(|weight| u8::from(weight.is_some())).collect();
        let recorded: Vec<i32> = weights.iter().copied().flatten().collect();
        let start = recorded.first().copied().unwrap_or(random.draw() as i32);
        let expected = weights.iter().map(|weight| weight.unwrap_or(GAP)).collect();
        assert_eq!(rebuilt(&counts, &flags, start), Ok(expected), "{counts:?} {flags:?} {start}");
        let turn = |weight: i32| weight.div_euclid(65_536);
        over_the_wrap += recorded.windows(2).filter(|two| turn(two[0]) != turn(two[1])).count();
    }
    assert!(over_the_wrap > 10_000, "{over_the_wrap}");
}

const COUNTS: [u16; 6] = [0, 16_960, 32_767, 32_768, 48_576, 65_535];

/// Each step between two of these counts, found among all numbers that a step can be.
fn every_step() -> HashMap<(u16, u16), i32> {
    let pairs = COUNTS.iter().flat_map(|&earlier| COUNTS.iter().map(move |&later| (earlier, later)));
    let tried = |(earlier, later): (u16, u16)| {
        let fits = |step: &i32| (i32::from(earlier) + step - i32::from(later)) % 65_536 == 0;
        let fitting: Vec<i32> = (-32_768..=32_767).filter(fits).collect();
        assert_eq!(fitting.len(), 1, "{earlier} {later}");
        fitting[0]
    };
    pairs.map(|pair| (pair, tried(pair))).collect()
}

/// What a small log should give, hour by hour from the left, told as soon as it is known.
fn expected(log: &[(u16, u8)], start: i32, steps: &HashMap<(u16, u16), i32>) -> Result<Vec<i32>, Refusal> {
    if let Some(hour) = log.iter().position(|&(_, flag)| flag > 1) {
        return Err(refusal(14, hour as u64));
    }
    let mut last: Option<(u16, i32)> = None;
    let mut hours = Vec::new();
    for (hour, &(count, flag)) in log.iter().enumerate() {
        if flag == 0 {
            hours.push(GAP);
            continue;
        }
        let weight = last.map_or(start, |(earlier, weight)| weight + steps[&(earlier, count)]);
        if (weight - i32::from(count)) % 65_536 != 0 {
            return Err(refusal(15, 0));
        }
        if !is_reading(weight) {
            return Err(refusal(2, hour as u64));
        }
        last = Some((count, weight));
        hours.push(weight);
    }
    Ok(hours)
}

#[test]
fn every_small_log() {
    let steps = every_step();
    let hour = |held: usize| (COUNTS[held % 6], (held / 6) as u8);
    for n in 1..=3_u32 {
        for held in 0..18_usize.pow(n) {
            let log: Vec<(u16, u8)> = (0..n).map(|place| hour(held / 18_usize.pow(place) % 18)).collect();
            let (counts, flags): (Vec<u16>, Vec<u8>) = log.iter().copied().unzip();
            for turns in [-16, -1, 0, 15] {
                for count in COUNTS {
                    let start = 65_536 * turns + i32::from(count);
                    assert_eq!(rebuilt(&counts, &flags, start), expected(&log, start, &steps), "{log:?} {start}");
                }
            }
        }
    }
}
