//! Reads one case a line from standard input and prints one answer a line.

use std::io::{self, BufRead, Write};

fn main() -> io::Result<()> {
    let mut out = io::BufWriter::new(io::stdout().lock());
    for line in io::stdin().lock().lines() {
        writeln!(out, "{}", oracle::answer(&line?))?;
    }
    out.flush()
}
