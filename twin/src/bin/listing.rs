//! Reads lines of a book in hex and a trial limit, and prints the search's answer to each.

use std::io::{self, BufRead, Write};
use twin::hex::from_hex;
use twin::reporting::{answer_line, refusal_line};
use twin::search;

/// The answer to one input line, or nothing if the line isn't a book and a limit.
fn answer(line: &str) -> Option<String> {
    let mut words = line.split_whitespace();
    let book = from_hex(words.next()?)?;
    let limit = words.next()?.parse().ok()?;
    if words.next().is_some() {
        return None;
    }
    Some(match search(&book, limit) {
        Ok(answer) => answer_line(answer),
        Err(refusal) => refusal_line(refusal),
    })
}

/// Answers every line of standard input on one line of standard output.
fn main() -> io::Result<()> {
    let mut out = io::stdout().lock();
    for line in io::stdin().lock().lines() {
        let line = line?;
        let answer = answer(&line)
            .ok_or_else(|| io::Error::new(io::ErrorKind::InvalidData, "want: HEX LIMIT"))?;
        writeln!(out, "{answer}")?;
        // A driver may feed lines one by one and wait for each answer.
        out.flush()?;
    }
    Ok(())
}
