//! Columns and days, also by a scan, and the plain side's joining.

use std::collections::BTreeSet;

use crate::common::{
    answer, damage, draw_series, mark, places, range, refusal, second_column, table_of, DAY_CHANGE, FINISHED, STOPPED,
};
use bench::words::{edges, Column, Finished, Refusal, Stopped, DAY, GAP};
use bench::{plain, scan};
use second::random::Random;

/// A lent table, a column of it and a depth.
#[derive(Debug)]
struct Asked {
    n: usize,
    coefficients: Vec<i32>,
    codes: Vec<u8>,
    column: Column,
    d: usize,
}

/// The number of a refusal, `None` if it is taken.
fn number<T>(told: &Result<T, Refusal>) -> Option<u8> {
    told.as_ref().err().map(|refusal| refusal.number)
}

impl Asked {
    fn stopped(&self) -> Result<Stopped, Refusal> {
        let Asked { n, coefficients, codes, column, d } = self;
        let told = second::stopped(*n as u64, coefficients, codes, second_column(*column), *d as u64);
        told.map_err(refusal).map(|second::Stopped { outer, inner, count }| Stopped {
            outer: range(outer),
            inner: range(inner),
            count: count as usize,
        })
    }

    fn finished(&self) -> Result<Finished, Refusal> {
        let Asked { n, coefficients, codes, column, .. } = self;
        let told = second::finished(*n as u64, coefficients, codes, second_column(*column));
        told.map_err(refusal).map(|told| Finished { answer: answer(told.answer), count: told.count as usize })
    }

    /// The number of the refusal of edges, stopped and finished, `None` where the second program takes it; each side
    /// has to answer the same.
    fn compare(&self) -> [Option<u8>; 3] {
        let Asked { n, coefficients, codes, column, d } = self;
        let hours = second::edges(*n as u64, second_column(*column)).map_err(refusal);
        let hours = hours.map(|hours| hours.first as usize..hours.end as usize);
        assert_eq!(edges(*n, *column), hours, "{self:?}");
        let (by_stopped, by_finished) = (self.stopped(), self.finished());
        for (stopped, finished) in STOPPED.into_iter().zip(FINISHED) {
            assert_eq!(stopped(*n, coefficients, codes, *column, *d), by_stopped, "{self:?}");
            assert_eq!(finished(*n, coefficients, codes, *column), by_finished, "{self:?}");
        }
        [number(&hours), number(&by_stopped), number(&by_finished)]
    }

    /// The same for a day.
    fn compare_day(&self, day: usize) -> Option<u8> {
        let Asked { n, coefficients, codes, .. } = self;
        let by_second = second::day_change(*n as u64, coefficients, codes, day as u64).map_err(refusal);
        for day_change in DAY_CHANGE {
            assert_eq!(day_change(*n, coefficients, codes, day), by_second, "{day} {self:?}");
        }
        number(&by_second)
    }
}

/// A number below a bound, seldom the bound itself or any other.
fn draw_below(random: &mut Random, bound: usize) -> usize {
    match random.below(30) {
        0 => bound,
        1 => random.one_of(&[bound + 1, 4_096, 4_097, usize::MAX]),
        _ => random.below(bound.max(1) as u64) as usize,
    }
}

/// A column of a table that is sound, or damaged at one place, and sometimes a buffer short.
fn draw_asked(random: &mut Random) -> Asked {
    let n = 1 + random.below(70) as usize;
    let p = places(n);
    let (mut coefficients, mut codes) = table_of(&draw_series(random, n));
    match random.below(5) {
        0 | 1 => damage(random, &mut coefficients, &mut codes),
        2 => mark(random, &mut coefficients),
        _ => {}
    }
    match random.below(30) {
        0 => coefficients.truncate(p - 1),
        1 => codes.truncate(p / 2 - 1),
        _ => {}
    }
    let a = draw_below(random, n);
    let b = a.saturating_add(draw_below(random, n)).min(if random.once_in(30) { usize::MAX } else { n });
    let w = 1 + draw_below(random, 12).min(9_000);
    let column = Column { a, b, w, k: draw_below(random, w) };
    let n = if random.once_in(40) { random.one_of(&[0, 16_385, usize::MAX]) } else { n };
    Asked { n, coefficients, codes, column, d: draw_below(random, p.ilog2() as usize + 1) }
}

#[test]
fn sound_and_damaged_tables() {
    let mut random = Random::new(10);
    let (mut of_edges, mut stopped, mut finished, mut days) =
        (BTreeSet::new(), BTreeSet::new(), BTreeSet::new(), BTreeSet::new());
    for _ in 0..60_000 {
        let asked = draw_asked(&mut random);
        let told = asked.compare();
        of_edges.insert(told[0]);
        stopped.insert(told[1]);
        finished.insert(told[2]);
        days.extend([0, 1, 2, 1 << 61, 1 << 63].map(|day| asked.compare_day(day)));
    }
    assert!(of_edges.into_iter().eq([None, Some(1), Some(5), Some(6)]));
    assert!(stopped.into_iter().eq([None, Some(1), Some(3), Some(4), Some(5), Some(6), Some(7)]));
    assert!(finished.into_iter().eq([None, Some(1), Some(3), Some(4), Some(5), Some(6)]));
    assert!(days.into_iter().eq([None, Some(1), Some(3), Some(4), Some(5)]));
}

/// A series in which whole days may have no reading.
fn draw_days(random: &mut Random) -> Vec<i32> {
    let n = 1 + random.below(130) as usize;
    let mut readings = draw_series(random, n);
    readings.chunks_mut(DAY).filter(|_| random.once_in(3)).for_each(|day| day.fill(GAP));
    readings
}

/// Days of such series, and of tables changed at up to three places.
#[test]
fn days_after_gaps_of_days() {
    let mut random = Random::new(13);
    let mut told = BTreeSet::new();
    for _ in 0..20_000 {
        let readings = draw_days(&mut random);
        let n = readings.len();
        let (mut coefficients, mut codes) = table_of(&readings);
        for _ in 0..random.below(4) {
            damage(&mut random, &mut coefficients, &mut codes);
        }
        let asked = Asked { n, coefficients, codes, column: Column { a: 0, b: n, w: 1, k: 0 }, d: 0 };
        told.extend((0..=n.div_ceil(DAY)).map(|day| asked.compare_day(day)));
    }
    assert!(told.into_iter().eq([None, Some(4), Some(5)]));
}

#[test]
fn every_window_and_depth_of_every_length() {
    let mut random = Random::new(71);
    for n in 1..=70 {
        let (coefficients, codes) = table_of(&draw_series(&mut random, n));
        let column = Column { a: 0, b: n, w: 1, k: 0 };
        let mut asked = Asked { n, coefficients, codes, column, d: 0 };
        for (a, b) in (0..n).flat_map(|a| (a + 1..=n).map(move |b| (a, b))) {
            asked.column = Column { a, b, w: 1, k: 0 };
            asked.d = (a + b) % (places(n).ilog2() as usize + 1);
            assert_eq!(asked.compare(), [None; 3]);
        }
    }
}

#[test]
fn the_longest_series() {
    let readings: Vec<i32> = (0..16_384).map(|hour| if hour % 33 == 7 { GAP } else { hour % 977 }).collect();
    let (coefficients, codes) = table_of(&readings);
    let column = Column { a: 1, b: 16_383, w: 4_096, k: 0 };
    let mut asked = Asked { n: 16_384, coefficients, codes, column, d: 14 };
    for k in 0..4_096 {
        asked.column.k = k;
        asked.d = k % 15;
        assert_eq!(asked.compare(), [None; 3]);
    }
    for day in 0..=682 {
        assert_eq!(asked.compare_day(day), None);
    }
}

#[test]
fn scanned_readings() {
    let mut random = Random::new(12);
    for _ in 0..20_000 {
        let n = 1 + random.below(70) as usize;
        let readings = draw_series(&mut random, n);
        let (coefficients, codes) = table_of(&readings);
        let Asked { column, .. } = draw_asked(&mut random);
        let asked = Asked { n, coefficients, codes, column, d: places(n).ilog2() as usize };
        assert_eq!(scan::finished(n, &readings, column), asked.finished().map(|told| told.answer), "{asked:?}");
        assert_eq!(scan::stopped(n, &readings, column), asked.stopped().map(|told| told.inner), "{asked:?}");
    }
}

#[test]
fn scanned_days() {
    let mut random = Random::new(14);
    let mut told = BTreeSet::new();
    for _ in 0..20_000 {
        let readings = draw_days(&mut random);
        let n = readings.len();
        let (coefficients, codes) = table_of(&readings);
        for day in 0..=n.div_ceil(DAY) {
            let by_second = second::day_change(n as u64, &coefficients, &codes, day as u64).map_err(refusal);
            assert_eq!(scan::day_change(n, &readings, day), by_second, "{day} {readings:?}");
            assert_eq!(number(&scan::day_change(n, &readings[1..], day)), Some(3));
            told.insert(number(&by_second));
        }
    }
    assert!(told.into_iter().eq([None, Some(5)]));
    for n in [0, 16_385, usize::MAX] {
        assert_eq!(number(&scan::day_change(n, &[], 0)), Some(1));
    }
}

#[test]
fn joined_answers() {
    let mut random = Random::new(11);
    for _ in 0..10_000 {
        let mut draw = || {
            let mut reading = || second::Reading { hour: random.draw() >> 1, grams: random.draw() as i32 };
            let (first, last) = (reading(), reading());
            let (low, high) = (random.between(-9, 9), random.between(-9, 9));
            (!random.once_in(4)).then_some(second::Found { first, last, low, high })
        };
        let (left, right) = (draw(), draw());
        assert_eq!(plain::join(answer(left), answer(right)), answer(second::join(left, right)));
    }
}
