//! The line protocol: one call a line, one answer a line. The README describes it in full.

use std::fmt::{Display, Write};
use std::str::FromStr;

use crate::columns::{edges, stopped, Column};
use crate::finished::{day_change, finished, join, Answer, Found, Reading};
use crate::hours::{places, Hours, LowHigh};
use crate::level::level;
use crate::old_log::rebuild;
use crate::printer::print;
use crate::record::{ask, ask_view, open, read_record, record_bytes, write_record, Opened};
use crate::refusal::Refusal;
use crate::sound::turn_back;
use crate::table::make;

/// A buffer in a line holds at most this many numbers.
pub const MOST_NUMBERS: usize = 1 << 20;

/// The answer to a line that is no call of the format.
pub const BAD_LINE: &str = "bad line";

/// The answer to one line, neither with its line feed.
pub fn answer(line: &[u8]) -> String {
    std::str::from_utf8(line).ok().and_then(called).unwrap_or_else(|| String::from(BAD_LINE))
}

/// The answer to a call, `None` if the line is none.
fn called(line: &str) -> Option<String> {
    let mut parts = line.split('|');
    let mut head = fields(parts.next()?);
    let name = head.next()?;
    let words: Vec<&str> = head.collect();
    let buffers: Vec<&str> = parts.collect();

    // The one call with a number in its head that may be negative.
    if let ("rebuild", &[n, start], &[counts, flags, hours]) = (name, &words[..], &buffers[..]) {
        let mut hours = buffer(hours)?;
        let rebuilt = rebuild(number(n)?, &buffer(counts)?, &buffer(flags)?, number(start)?, &mut hours);
        return Some(taken_or_refused(rebuilt.map(|()| vec![])) + &shown(&hours));
    }
    let numbers: Vec<u64> = words.into_iter().map(number).collect::<Option<_>>()?;

    let text = match (name, &numbers[..], &buffers[..]) {
        ("places", &[n], []) => taken_or_refused(Ok(vec![field(places(n))])),
        ("record_bytes", &[n], []) => taken_or_refused(Ok(vec![field(record_bytes(n))])),
        ("make", &[n], [readings, coefficients, codes]) => {
            let readings = buffer(readings)?;
            let (mut coefficients, mut codes) = (buffer(coefficients)?, buffer(codes)?);
            let made = make(n, &readings, &mut coefficients, &mut codes);
            taken_or_refused(made.map(|()| vec![])) + &shown(&coefficients) + &shown(&codes)
        }
        ("turn_back", &[n], [coefficients, codes, hours]) => {
            let mut hours = buffer(hours)?;
            let turned = turn_back(n, &buffer(coefficients)?, &buffer(codes)?, &mut hours);
            taken_or_refused(turned.map(|()| vec![])) + &shown(&hours)
        }
        ("level", &[n, j], [coefficients]) => {
            let coefficients = buffer(coefficients)?;
            let stretch = level(n, j, &coefficients);
            format!("stretch {} {}", stretch.start, stretch.length) + &shown(stretch.of(&coefficients))
        }
        ("write_record", &[n], [coefficients, codes, record]) => {
            let mut record = buffer(record)?;
            let written = write_record(n, &buffer(coefficients)?, &buffer(codes)?, &mut record);
            taken_or_refused(written.map(|bytes| vec![field(bytes)])) + &shown(&record)
        }
        ("read_record", &[], [bytes, coefficients, codes]) => {
            let (mut coefficients, mut codes) = (buffer(coefficients)?, buffer(codes)?);
            let read = read_record(&buffer(bytes)?, &mut coefficients, &mut codes);
            taken_or_refused(read.map(|n| vec![field(n)])) + &shown(&coefficients) + &shown(&codes)
        }
        ("open", &[], [bytes]) => {
            taken_or_refused(open(&buffer(bytes)?).map(|Opened { n, p }| vec![field(n), field(p)]))
        }
        ("ask", &[place], [bytes]) => {
            taken_or_refused(ask(&buffer(bytes)?, place).map(|coefficient| vec![field(coefficient)]))
        }
        ("ask_view", &[p, place], [bytes]) => {
            taken_or_refused(ask_view(&buffer(bytes)?, p, place).map(|coefficient| vec![field(coefficient)]))
        }
        ("edges", &[n, a, b, w, k], []) => {
            let hours = edges(n, Column { a, b, w, k });
            taken_or_refused(hours.map(|Hours { first, end }| vec![field(first), field(end)]))
        }
        ("stopped", &[n, a, b, w, k, d], [coefficients, codes]) => {
            let stopped = stopped(n, &buffer(coefficients)?, &buffer(codes)?, Column { a, b, w, k }, d);
            taken_or_refused(stopped.map(|stopped| {
                [range_fields(stopped.outer), range_fields(stopped.inner), vec![field(stopped.count)]].concat()
            }))
        }
        ("finished", &[n, a, b, w, k], [coefficients, codes]) => {
            let finished = finished(n, &buffer(coefficients)?, &buffer(codes)?, Column { a, b, w, k });
            taken_or_refused(
                finished.map(|finished| [answer_fields(finished.answer), vec![field(finished.count)]].concat()),
            )
        }
        ("join", &[], [left, right]) => taken_or_refused(Ok(answer_fields(join(answer_of(left)?, answer_of(right)?)))),
        ("day_change", &[n, day], [coefficients, codes]) => {
            let change = day_change(n, &buffer(coefficients)?, &buffer(codes)?, day);
            taken_or_refused(change.map(|change| vec![change.map_or_else(absent, field)]))
        }
        ("print", &[], [input]) => String::from("printed") + &shown(&print(&buffer(input)?)),
        _ => return None,
    };
    Some(text)
}

/// The fields of a part of a line, which stand any number of spaces apart.
fn fields(part: &str) -> impl Iterator<Item = &str> {
    part.split(' ').filter(|field| !field.is_empty())
}

/// A number of digits, with a minus where it may be negative, and nothing else.
fn number<T: FromStr>(text: &str) -> Option<T> {
    text.strip_prefix('-').unwrap_or(text).bytes().all(|byte| byte.is_ascii_digit()).then(|| text.parse().ok())?
}

/// A buffer: numbers, of which `7*5` stands for five times 7.
fn buffer<T: FromStr + Clone>(part: &str) -> Option<Vec<T>> {
    let mut numbers = Vec::new();
    for field in fields(part) {
        let (value, times) = match field.split_once('*') {
            Some((value, times)) => (number(value)?, number(times)?),
            None => (number(field)?, 1),
        };
        if times > MOST_NUMBERS - numbers.len() {
            return None;
        }
        numbers.extend(std::iter::repeat_n::<T>(value, times));
    }
    Some(numbers)
}

/// An answer to be joined: six fields, all `-` for "no reading".
fn answer_of(part: &str) -> Option<Answer> {
    let fields: Vec<&str> = fields(part).collect();
    let [first_hour, first, last_hour, last, low, high] = fields[..] else {
        return None;
    };
    if fields.iter().all(|&field| field == "-") {
        return Some(None);
    }
    Some(Some(Found {
        first: Reading { hour: number(first_hour)?, grams: number(first)? },
        last: Reading { hour: number(last_hour)?, grams: number(last)? },
        low: number(low)?,
        high: number(high)?,
    }))
}

fn field(shown: impl Display) -> String {
    shown.to_string()
}

fn absent() -> String {
    field("-")
}

fn range_fields(range: Option<LowHigh>) -> Vec<String> {
    range.map_or_else(|| vec![absent(); 2], |LowHigh { low, high }| vec![field(low), field(high)])
}

fn answer_fields(answer: Answer) -> Vec<String> {
    let Some(Found { first, last, low, high }) = answer else {
        return vec![absent(); 6];
    };
    vec![field(first.hour), field(first.grams), field(last.hour), field(last.grams), field(low), field(high)]
}

/// `taken` and the fields of the answer, or the refusal.
fn taken_or_refused(answer: Result<Vec<String>, Refusal>) -> String {
    match answer {
        Ok(fields) => fields.iter().fold(String::from("taken"), |text, field| text + " " + field),
        Err(refusal) => refusal.to_string(),
    }
}

/// A bar and every number of a buffer.
fn shown<T: Display>(buffer: &[T]) -> String {
    let mut text = String::from(" |");
    for number in buffer {
        write!(text, " {number}").expect("a string takes every text");
    }
    text
}
