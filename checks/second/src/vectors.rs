//! The vectors: calls with chosen contents and this program's answers to them, in plain numbers that a small program
//! can read. `crates/vectors` runs those of tables, records, columns and logs of the old scales.
//! `crates/printer_vectors` runs the printer on inputs, which stand as they are.
//!
//! A call is its kind, the numbers it takes, and its buffers, each its length and then its content. The tens of a kind
//! are its group: none for tables and logs of the old scales, one for records, two for columns. The answer is the
//! number of the refusal, 0 if the call is taken, its place, the fields of the answer, each 0 on a refusal, and the
//! whole content of each buffer that the call writes. In a buffer `7*5` stands for 7 five times; a number that comes
//! once stands alone. Each call, each answer and each buffer begins a line; a line has at most eight numbers, repeated
//! ones counted once, one space apart. No number has more than thirteen digits.

use std::collections::BTreeMap;
use std::fmt::Display;

use crate::refusal::Refusal;

mod made;

pub mod tables;

pub mod records;

pub mod columns;

pub mod old_logs;

pub mod printer;

/// The greatest number that the program reads.
pub const GREATEST_NUMBER: u64 = 9_999_999_999_999;

/// A call with what its buffers hold before.
pub trait Vector {
    /// The call as lines.
    fn lines(&self) -> Vec<u8>;

    /// The name of the call and its outcome, and the answer as lines.
    fn answer(self) -> (String, Vec<u8>);
}

/// What a program is run on and what it must write.
pub struct Written {
    /// The crate of the program.
    pub program: &'static str,
    /// The calls as text.
    pub input: Vec<u8>,
    /// The answers to them as text.
    pub output: Vec<u8>,
    /// How many calls had each outcome.
    pub outcomes: BTreeMap<String, usize>,
}

impl Written {
    fn of(program: &'static str) -> Written {
        Written { program, input: Vec::new(), output: Vec::new(), outcomes: BTreeMap::new() }
    }

    /// With these calls at its end.
    fn with(mut self, calls: Vec<impl Vector>) -> Written {
        for call in calls {
            self.input.extend(call.lines());
            let (outcome, answer) = call.answer();
            self.output.extend(answer);
            *self.outcomes.entry(outcome).or_insert(0) += 1;
        }
        self
    }
}

/// The vectors of each program.
pub fn written() -> [Written; 2] {
    let calls = Written::of("vectors").with(tables::calls()).with(records::calls());
    let calls = calls.with(columns::calls()).with(old_logs::calls());
    [calls, Written::of("printer_vectors").with(printer::calls())]
}

/// Numbers that stand one by one: what is called and what it takes, or what is answered.
fn numbers(numbers: &[i64]) -> Vec<String> {
    numbers.iter().map(i64::to_string).collect()
}

/// The numbers with which an answer begins: number and place of the refusal, and so many fields.
fn head(answered: &Result<Vec<i64>, Refusal>, fields: usize) -> Vec<String> {
    numbers(&match answered {
        Ok(told) => [vec![0, 0], told.clone()].concat(),
        Err(refusal) => [vec![i64::from(refusal.number), refusal.place as i64], vec![0; fields]].concat(),
    })
}

/// A call's name and what happened to it.
fn outcome<T>(name: &str, answered: &Result<T, Refusal>) -> String {
    match answered {
        Ok(_) => format!("{name} taken"),
        Err(refusal) => format!("{name} refused {}", refusal.number),
    }
}

/// What a buffer holds, a repeated number once.
fn content<T: Copy + PartialEq + Display>(buffer: &[T]) -> Vec<String> {
    let run = |run: &[T]| if run.len() == 1 { run[0].to_string() } else { format!("{}*{}", run[0], run.len()) };
    buffer.chunk_by(T::eq).map(run).collect()
}

/// The length of a buffer, and what it holds.
fn lent<T: Copy + PartialEq + Display>(buffer: &[T]) -> Vec<String> {
    [vec![buffer.len().to_string()], content(buffer)].concat()
}

/// Each part begins a line; eight numbers to a line.
fn lines(parts: &[Vec<String>]) -> Vec<u8> {
    let line = |row: &[String]| row.join(" ") + "\n";
    parts.iter().flat_map(|part| part.chunks(8)).map(line).collect::<String>().into_bytes()
}

/// What lent buffers hold before: a number that no call writes.
fn before(length: usize) -> Vec<i32> {
    vec![9_999_999; length]
}

/// The same of codes, and of records, where a call may write any byte.
fn bytes_before(length: usize) -> Vec<u8> {
    vec![99; length]
}

/// Whether a set of causes of a refusal, each a bit, has this one.
fn has(causes: u32, cause: u32) -> bool {
    causes >> cause & 1 == 1
}
