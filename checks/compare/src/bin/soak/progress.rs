//! How far the soak is, on standard error: one line that is written anew on a terminal, elsewhere a line now and then.

use std::io::{stderr, IsTerminal, Write};
use std::time::{Duration, Instant};

/// The line on a terminal is written anew this often.
const ON_A_TERMINAL: Duration = Duration::from_secs(1);

/// Elsewhere a line is written this often.
const ELSEWHERE: Duration = Duration::from_secs(10);

/// Shows how far the soak is.
pub struct Progress {
    all: usize,
    on_a_terminal: bool,
    started: Instant,
    shown: Instant,
}

impl Progress {
    /// Of a soak of so many calls, which begins now.
    pub fn of(all: usize) -> Progress {
        let now = Instant::now();
        Progress { all, on_a_terminal: stderr().is_terminal(), started: now, shown: now }
    }

    /// Shows it, if that was long enough ago. What cannot be shown is left out.
    pub fn show(&mut self, calls: usize, differences: usize) {
        let pause = if self.on_a_terminal { ON_A_TERMINAL } else { ELSEWHERE };
        if self.shown.elapsed() < pause {
            return;
        }
        self.shown = Instant::now();
        let line = line(calls, self.all, self.started.elapsed(), differences);
        if self.on_a_terminal {
            // What the line before had beyond this one is erased.
            let _ = write!(stderr(), "\r{line}\x1b[K");
        } else {
            let _ = writeln!(stderr(), "{line}");
        }
    }

    /// Makes room for other output on a terminal.
    pub fn clear(&self) {
        if self.on_a_terminal {
            let _ = write!(stderr(), "\r\x1b[K");
        }
    }
}

/// How far a soak is after some time.
fn line(calls: usize, all: usize, time: Duration, differences: usize) -> String {
    let per_cent = 100.0 * calls as f64 / all as f64;
    let a_second = calls as f64 / time.as_secs_f64();
    format!("{calls} of {all} calls, {per_cent:.1} %, {a_second:.0} calls a second, {differences} differences")
}

#[cfg(test)]
mod tests {
    use super::*;

    #[test]
    fn a_line_tells_how_far_the_soak_is() {
        let line = line(2_500_000, 10_000_000, Duration::from_secs(100), 1);
        assert_eq!(line, "2500000 of 10000000 calls, 25.0 %, 25000 calls a second, 1 differences");
    }
}
