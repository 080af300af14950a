//! Reads lines and prints each again: what the program that takes commands is compared with.

use std::io::{self, BufRead, BufReader, BufWriter, Write};

const BUFFER: usize = 64 * 1024;

fn main() -> io::Result<()> {
    let mut reader = BufReader::with_capacity(BUFFER, io::stdin().lock());
    let mut writer = BufWriter::with_capacity(BUFFER, io::stdout().lock());
    let mut line = Vec::new();
    // The standard library finds the end of the line by `memchr`.
    while reader.read_until(b'\n', &mut line)? > 0 {
        writer.write_all(&line)?;
        line.clear();
    }
    writer.flush()
}
