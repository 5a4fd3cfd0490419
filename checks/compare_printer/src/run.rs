//! One run of the printer as a child process.
//!
//! One thread feeds it and another reads what it prints, so that neither waits for the other; a printer that does not
//! end is stopped.

use std::ffi::OsString;
use std::io::{self, Read};
use std::process::{Child, Command, ExitStatus, Stdio};
use std::sync::mpsc::channel;
use std::thread;
use std::time::Duration;

use crate::difference::What;
use crate::feeding::{Feeder, Feeding};

/// A printer that has not ended by then is stopped.
const PATIENCE: Duration = Duration::from_secs(30);

/// A printer: its command and its arguments.
pub struct Printer {
    command: OsString,
    arguments: Vec<OsString>,
}

/// What came of a run that ended.
#[derive(Debug)]
pub struct Ended {
    /// All that it printed.
    pub printed: Vec<u8>,
    /// Its exit status.
    pub status: ExitStatus,
    /// Whether it read its whole input, the end included.
    pub fed: bool,
}

impl Ended {
    /// The difference from what is expected, if there is one. A run ends with status 0, a refused one too.
    pub fn held_against(self, expected: &[u8]) -> Result<(), What> {
        if self.printed != expected {
            return Err(What::Printed { expected: expected.to_vec(), printed: self.printed });
        }
        if !self.fed {
            return Err(What::EndedEarly);
        }
        if !self.status.success() {
            return Err(What::Status(self.status.to_string()));
        }
        Ok(())
    }
}

impl Printer {
    /// The printer that a command line names.
    pub fn new(command: OsString, arguments: Vec<OsString>) -> Printer {
        Printer { command, arguments }
    }

    /// Runs it on an input.
    pub fn run(&self, input: &[u8], feeding: Feeding) -> Result<Ended, What> {
        let (feeder, child) = self.start(feeding).map_err(not_run)?;
        follow(child, feeder, input.to_vec())
    }

    /// Starts it. The command, which holds a copy of the printer's end, is gone afterwards: else nobody would notice
    /// that the printer has closed its own.
    fn start(&self, feeding: Feeding) -> io::Result<(Feeder, Child)> {
        let (feeder, end) = feeding.ends()?;
        let mut command = Command::new(&self.command);
        let child = command.args(&self.arguments).stdin(end).stdout(Stdio::piped()).spawn()?;
        Ok((feeder, child))
    }
}

/// Feeds a printer that has started, and waits for its end. If it is stopped, nobody waits for the two threads: a
/// program that the printer has started may still hold the other ends.
fn follow(mut child: Child, feeder: Feeder, input: Vec<u8>) -> Result<Ended, What> {
    let mut output = child.stdout.take().expect("its output is a pipe of ours");
    let (send, printed) = channel();
    let feeding = thread::spawn(move || feeder.feed(&input).is_ok());
    thread::spawn(move || {
        let mut printed = Vec::new();
        let read = output.read_to_end(&mut printed).map(|_| printed);
        // Nobody listens any longer if the printer was stopped.
        let _ = send.send(read);
    });
    let Ok(read) = printed.recv_timeout(PATIENCE) else {
        child.kill().and_then(|()| child.wait()).map_err(not_run)?;
        return Err(What::Stopped);
    };
    let status = child.wait().map_err(not_run)?;
    let fed = feeding.join().expect("feeding does not panic");
    Ok(Ended { printed: read.map_err(not_run)?, status, fed })
}

fn not_run(error: io::Error) -> What {
    What::NotRun(error.to_string())
}

#[cfg(test)]
mod tests {
    use super::*;

    const WAYS: [Feeding; 3] = [Feeding::AtOnce, Feeding::ByteByByte, Feeding::Drawn(7)];

    fn printer(line: &str) -> Printer {
        let mut words = line.split(' ').map(OsString::from);
        Printer::new(words.next().expect("a command"), words.collect())
    }

    fn run(line: &str, input: &[u8], feeding: Feeding) -> Result<(), What> {
        printer(line).run(input, feeding).and_then(|ended| ended.held_against(input))
    }

    #[test]
    fn every_byte_arrives() {
        let long: Vec<u8> = (0..200_000u32).map(|k| (k * k / 7) as u8).collect();
        for input in [&[][..], b"0 1 1\n5\n", b"\0\xff\n", &long] {
            for feeding in WAYS {
                assert_eq!(run("cat", input, feeding), Ok(()), "{} bytes, {}", input.len(), feeding.name());
            }
        }
    }

    #[test]
    fn one_read_gets_one_byte() {
        let once = printer("dd bs=4096 count=1 status=none");
        assert_eq!(once.run(b"0 1 1", Feeding::AtOnce).map(|ended| ended.printed), Ok(b"0 1 1".to_vec()));
        assert_eq!(once.run(b"0 1 1", Feeding::ByteByByte).map(|ended| ended.printed), Ok(b"0".to_vec()));
    }

    #[test]
    fn the_end_can_be_read_again() {
        for feeding in WAYS {
            assert_eq!(run("cat - -", b"0 1 1\n5\n", feeding), Ok(()), "{}", feeding.name());
        }
    }

    #[test]
    fn other_output_is_a_difference() {
        for feeding in WAYS {
            let found = run("tr 5 6", b"45", feeding);
            assert_eq!(found, Err(What::Printed { expected: b"45".to_vec(), printed: b"46".to_vec() }));
        }
    }

    #[test]
    fn an_early_end_and_another_status_are_differences() {
        let long = vec![b'0'; 1_000_000];
        for feeding in WAYS {
            let ended = printer("head -c 7").run(&long, feeding);
            assert_eq!(ended.and_then(|ended| ended.held_against(&[b'0'; 7])), Err(What::EndedEarly));
        }
        let found = run("false", b"", Feeding::AtOnce);
        assert!(matches!(found, Err(What::Status(_))), "{found:?}");
        let found = run("./there is no such program", b"", Feeding::AtOnce);
        assert!(matches!(found, Err(What::NotRun(_))), "{found:?}");
    }
}
