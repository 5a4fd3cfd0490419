//! The column printer written for speed: standard input to standard output, in as few reads as it takes and one write.

use std::io::{self, Read, Write};

/// More than a text of 16,384 hours has, so that such a text is read at once.
const ROOM: usize = 1 << 18;

fn main() -> io::Result<()> {
    let mut input = vec![0; ROOM];
    let mut length = 0;
    let mut stdin = io::stdin().lock();
    loop {
        let read = stdin.read(&mut input[length..])?;
        if read == 0 {
            break;
        }
        length += read;
        if length == input.len() {
            input.resize(2 * length, 0);
        }
    }
    input.truncate(length);
    io::stdout().write_all(&bench::fast::print(input))
}
