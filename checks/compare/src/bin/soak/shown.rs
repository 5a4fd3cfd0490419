//! What was called and drawn, as tables.

use compare::drawing::Topic;
use compare::tally::{Lengths, Tally};
use compare::TOPICS;

/// All tables, each after an empty line, and an empty line after the last.
pub fn tables(tallies: &[Tally]) -> String {
    let mut tables = vec![calls(tallies), lengths(tallies)];
    tables.extend(TOPICS.map(|topic| drawn(tallies, topic)));
    tables.iter().fold(String::from("\n"), |text, table| text + table + "\n")
}

/// The calls of each kind and outcome.
fn calls(tallies: &[Tally]) -> String {
    let mut table = Table::headed("calls of each kind and outcome", &["calls"]);
    for tally in tallies {
        table.row(tally.name(), &[tally.calls()]);
        for (outcome, times) in tally.outcomes() {
            table.row(&format!("  {outcome}"), &[times]);
        }
        if tally.differences() > 0 {
            table.row("  different on the two sides", &[tally.differences()]);
        }
    }
    table.lines()
}

/// How long the lent buffers of each kind were, in the calls that need something of them.
fn lengths(tallies: &[Tally]) -> String {
    let mut table = Table::headed("buffers lent, guards before and after", &["short", "exact", "long"]);
    for tally in tallies {
        for (buffer, Lengths { short, exact, long }) in tally.lengths() {
            table.row(&format!("{} {buffer}", tally.name()), &[short, exact, long]);
        }
    }
    table.lines()
}

/// What was drawn of a topic, by each kind that draws of it.
fn drawn(tallies: &[Tally], topic: &Topic) -> String {
    let mut table = Table::headed(&format!("drawn: {}", topic.name), topic.drawn);
    for tally in tallies {
        let times: Vec<usize> = topic.drawn.iter().map(|note| tally.drawn(note)).collect();
        if times.iter().any(|&times| times > 0) {
            table.row(tally.name(), &times);
        }
    }
    table.lines()
}

/// A table being written: names on the left, numbers below their headings on the right.
struct Table(Vec<Vec<String>>);

impl Table {
    /// The first row.
    fn headed(title: &str, headings: &[&str]) -> Table {
        Table(vec![[&[title], headings].concat().into_iter().map(String::from).collect()])
    }

    /// A name and its numbers.
    fn row(&mut self, name: &str, numbers: &[usize]) {
        let numbers = numbers.iter().map(usize::to_string);
        self.0.push([String::from(name)].into_iter().chain(numbers).collect());
    }

    /// The rows as lines, every column as wide as its widest field.
    fn lines(&self) -> String {
        let widest = |column: usize| self.0.iter().map(|row| row[column].len()).max().unwrap_or(0);
        let widths: Vec<usize> = (0..self.0[0].len()).map(widest).collect();
        let mut lines = String::new();
        for row in &self.0 {
            lines += &format!("{:width$}", row[0], width = widths[0]);
            for (number, width) in row.iter().zip(&widths).skip(1) {
                lines += &format!("  {number:>width$}");
            }
            lines.push('\n');
        }
        lines
    }
}

#[cfg(test)]
mod tests {
    use super::*;

    #[test]
    fn columns_are_as_wide_as_needed() {
        let mut table = Table::headed("buffers", &["short", "long"]);
        table.row("make codes", &[7, 123_456]);
        table.row("open record", &[0, 9]);
        let lines = ["buffers      short    long", "make codes       7  123456", "open record      0       9"];
        assert_eq!(table.lines(), lines.map(|line| format!("{line}\n")).concat());
    }
}
