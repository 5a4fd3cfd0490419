//! A call as a line for `second answer`, so that it can be run again.

use std::fmt::{Display, Write};

/// A line being written: the name of the call, its numbers, then its buffers.
pub struct Line(String);

impl Line {
    /// The name of the call.
    pub fn call(name: &str) -> Line {
        Line(String::from(name))
    }

    /// A number of the head.
    pub fn number(mut self, number: impl Display) -> Line {
        self.push(number);
        self
    }

    /// A buffer, with a repeated number as `7*5`.
    pub fn buffer<T: Display + PartialEq>(mut self, buffer: &[T]) -> Line {
        self.push('|');
        for run in buffer.chunk_by(T::eq) {
            match run {
                [number] => self.push(number),
                _ => self.push(format_args!("{}*{}", run[0], run.len())),
            }
        }
        self
    }

    /// A buffer of fields, each as it is.
    pub fn fields(mut self, fields: &[String]) -> Line {
        self.push('|');
        fields.iter().for_each(|field| self.push(field));
        self
    }

    /// The line itself.
    pub fn end(self) -> String {
        self.0
    }

    fn push(&mut self, shown: impl Display) {
        write!(self.0, " {shown}").expect("a string takes every text");
    }
}

#[cfg(test)]
mod tests {
    use super::*;

    #[test]
    fn a_line_is_a_call() {
        let line = Line::call("make").number(2).buffer(&[7, 7]).buffer(&[0, 0, 5]).buffer::<u8>(&[]).end();
        assert_eq!(line, "make 2 | 7*2 | 0*2 5 |");
        assert_eq!(second::answer::answer(line.as_bytes()), "refused 3 at 0 | 0 0 5 |");

        let line = Line::call("rebuild").number(1).number(-1).buffer(&[65_535_u16]).buffer(&[1_u8]).buffer(&[0]).end();
        assert_eq!(line, "rebuild 1 -1 | 65535 | 1 | 0");
        assert_eq!(second::answer::answer(line.as_bytes()), "taken | -1");

        let fields = ["0", "7", "0", "7", "7", "7"].map(String::from);
        let line = Line::call("join").fields(&fields).fields(&["-"; 6].map(String::from)).end();
        assert_eq!(line, "join | 0 7 0 7 7 7 | - - - - - -");
        assert_eq!(second::answer::answer(line.as_bytes()), "taken 0 7 0 7 7 7");
    }
}
