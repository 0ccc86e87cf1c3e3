//! The report program: reads a book on standard input and prints the report on it.

use std::io::{self, Read, Write};
use twin::reporting::{report, KEPT};

/// Keeps the first bytes of standard input and prints the report on them.
fn main() -> io::Result<()> {
    let mut book = Vec::new();
    let mut input = io::stdin().lock();
    input.by_ref().take(KEPT as u64).read_to_end(&mut book)?;
    // The rest is read and dropped, so that whoever hands the book in can finish.
    io::copy(&mut input, &mut io::sink())?;
    io::stdout().write_all(report(&book).as_bytes())
}
