//! How an input reaches the printer.
//!
//! At once: through a pipe. In pieces: byte by byte through a datagram socket, so that each read of the printer gets
//! one byte whatever room it has, and an empty datagram, which is a read of 0 bytes, as the end. Long inputs would take
//! too long that way. They come in pieces of drawn sizes through a stream socket; what one read gets of them depends on
//! which of the two programs is faster. (A datagram of several bytes would lose those that a read has no room for.)

use std::io::{self, Write};
use std::os::fd::OwnedFd;
use std::os::unix::net::{UnixDatagram, UnixStream};
use std::process::Stdio;
use std::thread;

use second::random::Random;

/// The longest input that comes byte by byte.
const MOST_SINGLE_BYTES: usize = 150_000;

/// The longest piece of those that do not.
const LONGEST_PIECE: u64 = 300;

/// A printer may read the end so many times. Unlike the end of a pipe, an empty datagram is read only once.
const ENDS: usize = 5;

/// A way to feed an input.
#[derive(Clone, Copy, Debug, PartialEq, Eq)]
pub enum Feeding {
    /// Through a pipe.
    AtOnce,
    /// One byte a read.
    ByteByByte,
    /// In pieces whose sizes are drawn with this seed.
    Drawn(u64),
}

impl Feeding {
    /// The way to feed this input in pieces.
    pub fn in_pieces(input: &[u8], seed: u64) -> Feeding {
        if input.len() <= MOST_SINGLE_BYTES {
            Feeding::ByteByByte
        } else {
            Feeding::Drawn(seed)
        }
    }

    /// What it is called in what is printed.
    pub fn name(self) -> &'static str {
        match self {
            Feeding::AtOnce => "at once",
            Feeding::ByteByByte => "byte by byte",
            Feeding::Drawn(_) => "in pieces of drawn sizes",
        }
    }

    /// The two ends: ours, and the printer's as its standard input.
    pub fn ends(self) -> io::Result<(Feeder, Stdio)> {
        match self {
            Feeding::AtOnce => {
                let (printers, ours) = io::pipe()?;
                Ok((Feeder::Pipe(ours), Stdio::from(printers)))
            }
            Feeding::ByteByByte => {
                let (ours, printers) = UnixDatagram::pair()?;
                Ok((Feeder::Datagrams(ours), Stdio::from(OwnedFd::from(printers))))
            }
            Feeding::Drawn(seed) => {
                let (ours, printers) = UnixStream::pair()?;
                Ok((Feeder::Stream(ours, Random::new(seed)), Stdio::from(OwnedFd::from(printers))))
            }
        }
    }
}

/// Our end.
pub enum Feeder {
    /// Of a pipe.
    Pipe(io::PipeWriter),
    /// Of a datagram socket.
    Datagrams(UnixDatagram),
    /// Of a stream socket, with what draws the sizes of the pieces.
    Stream(UnixStream, Random),
}

impl Feeder {
    /// Feeds the whole input and then its end. An error is the printer's: it ended before it had read the end.
    pub fn feed(self, input: &[u8]) -> io::Result<()> {
        match self {
            Feeder::Pipe(mut pipe) => pipe.write_all(input),
            Feeder::Datagrams(socket) => {
                for byte in input.chunks(1).chain([&[][..]]) {
                    socket.send(byte)?;
                }
                // The printer may have ended by now.
                let _ = (1..ENDS).try_for_each(|_| socket.send(&[]).map(drop));
                Ok(())
            }
            Feeder::Stream(mut socket, mut random) => {
                let mut rest = input;
                while !rest.is_empty() {
                    let length = 1 + random.below(LONGEST_PIECE.min(rest.len() as u64)) as usize;
                    let (piece, after) = rest.split_at(length);
                    socket.write_all(piece)?;
                    thread::yield_now();
                    rest = after;
                }
                Ok(())
            }
        }
    }
}
