//! Holds the proved library and the twin against each other over generated books: compare SEED FOLDER books|seconds N. A book on which they differ is
//! saved in FOLDER, with what differed. The last line counts the books. So many books must bring every kind of answer.

mod holding;
mod wanted;

use compare::face;
use holding::{hold, Counts};
use std::io;
use std::path::Path;
use std::time::{Duration, Instant};
use twin::generate::{damaged, good, Random};
use twin::writing::encode;

/// How long to go on: for so many books, or for so long.
enum Until {
    Books(u64),
    Time(Duration),
}

/// The seed, the folder and the end, if the arguments say so.
fn wanted(arguments: &[String]) -> Option<(u64, &Path, Until)> {
    let [seed, folder, unit, count] = arguments else {
        return None;
    };
    let count = count.parse().ok()?;
    let until = match unit.as_str() {
        "books" => Until::Books(count),
        "seconds" => Until::Time(Duration::from_secs(count)),
        _ => return None,
    };
    Some((seed.parse().ok()?, Path::new(folder), until))
}

/// The name of a kind of answer.
fn kind_name(operation: &str, kind: u64, number: u64) -> String {
    match (operation, kind) {
        (_, 0) => format!("refused {number}"),
        ("judge" | "contract", 1..=4) => {
            ["OVER", "SPLIT", "CUT", "OK"][kind as usize - 1].to_string()
        }
        ("pieces", 1..=3) => {
            ["as they were", "merged", "left though OK"][kind as usize - 1].to_string()
        }
        ("sets", 1..=3) => ["joined", "parted", "of both words"][kind as usize - 1].to_string(),
        ("close", 1..=2) => ["DOWN", "OK"][kind as usize - 1].to_string(),
        ("search", 1..=3) => ["FOUND", "NONE", "MORE"][kind as usize - 1].to_string(),
        _ => "told".to_string(),
    }
}

/// Prints how many answers there were of each kind.
fn print_counts(counts: &Counts) {
    for (operation, ..) in KINDS {
        let kinds: Vec<String> = counts
            .iter()
            .filter(|((name, ..), _)| *name == operation)
            .map(|(&(name, kind, number), count)| {
                format!("{} {count}", kind_name(name, kind, number))
            })
            .collect();
        println!("{operation}: {}", kinds.join(", "));
    }
}

/// Saves a book and what differed.
fn save(folder: &Path, name: &str, bytes: &[u8], differences: &[String]) -> io::Result<()> {
    std::fs::create_dir_all(folder)?;
    std::fs::write(folder.join(format!("{name}.book")), bytes)?;
    std::fs::write(
        folder.join(format!("{name}.txt")),
        differences.join("\n") + "\n",
    )
}

/// The kinds of answer that an operation has: how many are told, and the numbers of its own refusals beside those of a book. What contraction and sets of
/// spans come to is counted besides, and is never refused.
const KINDS: [(&str, u64, Option<&[u64]>); 10] = [
    ("read", 1, Some(&[])),
    ("judge", 4, Some(&[12])),
    ("contract", 4, Some(&[12])),
    ("pieces", 3, None),
    ("close", 2, Some(&[12])),
    ("ask", 1, Some(&[12, 13])),
    ("ask_set", 1, Some(&[12, 13])),
    ("sets", 3, None),
    ("search", 3, Some(&[])),
    ("write", 1, Some(&[11, 12])),
];

/// The kinds of answer that never came.
fn missing(counts: &Counts) -> Vec<String> {
    let mut missing = Vec::new();
    for (name, told, own) in KINDS {
        let refused = own
            .into_iter()
            .flat_map(|own| (1..=10).chain(own.iter().copied()))
            .map(|number| (0, number));
        for (kind, number) in (1..=told).map(|kind| (kind, 0)).chain(refused) {
            if !counts.contains_key(&(name, kind, number)) {
                missing.push(format!("{name} {}", kind_name(name, kind, number)));
            }
        }
    }
    missing
}

/// A good book, a damaged one, or the start of a good one with any bytes behind it, at times more than any book has.
fn book(random: &mut Random) -> Vec<u8> {
    let (kind, seed) = (random.below(40), random.bits());
    if kind < 20 {
        return encode(&good(seed));
    }
    if kind < 39 {
        return damaged(seed);
    }
    let mut bytes = encode(&good(seed));
    bytes.truncate(random.below(2 * bytes.len()));
    let behind = random.below(5000);
    bytes.extend((0..behind).map(|_| random.byte()));
    bytes
}

/// Compares book after book, and tells by its status whether all were the same and, in a run of so many books, whether every kind of answer came.
fn main() -> io::Result<()> {
    let arguments: Vec<String> = std::env::args().skip(1).collect();
    let (seed, folder, until) = wanted(&arguments).ok_or_else(|| {
        io::Error::new(
            io::ErrorKind::InvalidInput,
            "want: SEED FOLDER books|seconds N",
        )
    })?;
    println!("seed {seed}");
    let start = Instant::now();
    let mut random = Random::new(seed);
    let mut counts = Counts::new();
    let (mut passed, mut failed) = (0, 0);
    while match until {
        Until::Books(count) => passed + failed < count,
        Until::Time(time) => start.elapsed() < time,
    } {
        let bytes = book(&mut random);
        let differences = hold(&bytes, random.bits(), &mut counts);
        if differences.is_empty() {
            passed += 1;
            continue;
        }
        failed += 1;
        let name = format!("{seed}-{}", passed + failed);
        println!("book {name} differs: {}", differences[0]);
        save(folder, &name, &bytes, &differences)?;
    }
    print_counts(&counts);
    let missing = missing(&counts);
    if !missing.is_empty() {
        println!("never: {}", missing.join(", "));
    }
    println!("{passed} passed, {failed} failed");
    let short = matches!(until, Until::Books(_)) && !missing.is_empty();
    std::process::exit(i32::from(failed > 0 || short))
}
