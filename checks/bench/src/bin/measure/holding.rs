//! Before anything is timed: every side gives what the second program gives on the work that is measured.

use bench::scan;
use bench::season::{Window, DAYS, N, W};
use bench::sides::{Fast, Plain, Proved, Store};
use bench::words::{Answer, Column, Finished, LowHigh, Reading, Stopped, Summary};
use bench::work::{Call, Side, Work, L};

/// The work of each side with its buffers written, after it was held against the second program. The scan has the
/// readings and needs no buffer.
pub fn held_against_second() -> [Work; 4] {
    let mut works = Side::ALL.map(|_| Work::new());
    let expected = by_second();
    for side in Side::STORES {
        let work = &mut works[side as usize];
        for call in Call::ALL.into_iter().filter(|call| call.is_of_whole_table()) {
            assert!(work.run(side, call), "{} is not taken on the {} side", call.name(), side.name());
        }
        assert!(work.written == expected.written, "the {} side writes something else", side.name());
    }
    let whole = (0, N);
    for window in expected.windows.iter().copied().chain([whole]) {
        for k in 0..W {
            hold_column(&expected, window, k);
        }
    }
    for day in 0..DAYS {
        hold_day(&expected, day);
    }
    works
}

/// What the second program writes.
fn by_second() -> Work {
    let n = N as u64;
    let mut work = Work::new();
    let written = &mut work.written;
    second::make(n, &work.readings, &mut written.coefficients, &mut written.codes).expect("taken");
    second::turn_back(n, &written.coefficients, &written.codes, &mut written.hours).expect("taken");
    second::write_record(n, &written.coefficients, &written.codes, &mut written.record).expect("taken");
    let read = second::read_record(&written.record, &mut written.read_coefficients, &mut written.read_codes);
    assert_eq!(read, Ok(n));
    assert_eq!(written.hours, work.readings);
    work
}

/// Fails unless every side answers a column as the second program does.
fn hold_column(Work { readings, written, .. }: &Work, window: Window, k: usize) {
    let (a, b) = window;
    let column = second::Column { a: a as u64, b: b as u64, w: W as u64, k: k as u64 };
    let (coefficients, codes) = (&written.coefficients, &written.codes);
    let finished = second::finished(N as u64, coefficients, codes, column).expect("taken");
    let finished = Finished { answer: answer(finished.answer), count: finished.count as usize };
    let stopped = second::stopped(N as u64, coefficients, codes, column, L as u64).expect("taken");
    let (outer, inner) = (stopped.outer.map(range), stopped.inner.map(range));
    let stopped = Stopped { outer, inner, count: stopped.count as usize };

    assert_eq!(Proved::finished(written, window, k), Some(finished), "{column:?}");
    assert_eq!(Plain::finished(written, window, k), Some(finished), "{column:?}");
    assert_eq!(Fast::finished(written, window, k), Some(finished), "{column:?}");
    assert_eq!(Proved::stopped(written, window, k), Some(stopped), "{column:?}");
    assert_eq!(Plain::stopped(written, window, k), Some(stopped), "{column:?}");
    assert_eq!(Fast::stopped(written, window, k), Some(stopped), "{column:?}");
    let column = Column { a, b, w: W, k };
    assert_eq!(scan::finished(N, readings, column), Ok(finished.answer), "{column:?}");
    assert_eq!(scan::stopped(N, readings, column), Ok(stopped.inner), "{column:?}");
}

/// Fails unless every side gives the change of a day as the second program does.
fn hold_day(Work { readings, written, .. }: &Work, day: usize) {
    let change = second::day_change(N as u64, &written.coefficients, &written.codes, day as u64).expect("taken");
    assert_eq!(Proved::day_change(written, day), Some(change), "day {day}");
    assert_eq!(Plain::day_change(written, day), Some(change), "day {day}");
    assert_eq!(Fast::day_change(written, day), Some(change), "day {day}");
    assert_eq!(scan::day_change(N, readings, day), Ok(change), "day {day}");
}

fn range(second::LowHigh { low, high }: second::LowHigh) -> LowHigh {
    LowHigh { low, high }
}

fn answer(answer: second::Answer) -> Answer {
    let reading = |of: second::Reading| Reading { hour: of.hour as usize, grams: of.grams };
    answer.map(|second::Found { first, last, low, high }| Summary {
        first: reading(first),
        last: reading(last),
        low,
        high,
    })
}
