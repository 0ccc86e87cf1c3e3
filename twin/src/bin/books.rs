//! Prints generated books in hex, one a line: books SEED COUNT KIND, KIND good or damaged.

use std::io::{self, Write};
use twin::generate::{damaged, good, Random};
use twin::hex::to_hex;
use twin::writing::encode;

/// The seed, the count and whether the books are to be damaged, if the arguments say so.
fn wanted(arguments: &[String]) -> Option<(u64, usize, bool)> {
    let [seed, count, kind] = arguments else {
        return None;
    };
    let damage = match kind.as_str() {
        "good" => false,
        "damaged" => true,
        _ => return None,
    };
    Some((seed.parse().ok()?, count.parse().ok()?, damage))
}

/// Prints the books that the arguments ask for.
fn main() -> io::Result<()> {
    let arguments: Vec<String> = std::env::args().skip(1).collect();
    let (seed, count, damage) = wanted(&arguments)
        .ok_or_else(|| io::Error::new(io::ErrorKind::InvalidInput, "want: SEED COUNT KIND"))?;
    let mut random = Random::new(seed);
    let mut out = io::BufWriter::new(io::stdout().lock());
    for _ in 0..count {
        let seed = random.bits();
        let bytes = if damage {
            damaged(seed)
        } else {
            encode(&good(seed))
        };
        writeln!(out, "{}", to_hex(&bytes))?;
    }
    out.flush()
}
