//! Times the proved library and a simple search in Rust side by side, on full-size books, and prints the table with their ratios.
//!
//! Each row is measured in turns, the one and then the other, and the median of the turns is taken.

mod baseline;

use compare::{books, face};
use std::hint::black_box;
use std::time::Instant;

/// How many turns each row is measured.
const TURNS: usize = 7;

/// The trial limit of the searches.
const TRIALS: u32 = 65_536;

/// One row: what is measured, how often a turn calls it, and both sides.
struct Row<'a> {
    name: &'a str,
    calls: u32,
    ours: &'a dyn Fn() -> [u64; 9],
    theirs: &'a dyn Fn() -> [u64; 9],
}

/// The nanoseconds of one call.
fn time(calls: u32, call: &dyn Fn() -> [u64; 9]) -> f64 {
    let start = Instant::now();
    for _ in 0..calls {
        black_box(call());
    }
    start.elapsed().as_nanos() as f64 / f64::from(calls)
}

/// The middle one of the times.
fn median(mut times: Vec<f64>) -> f64 {
    times.sort_by(f64::total_cmp);
    times[times.len() / 2]
}

/// Measures a row and prints it. Both sides must give the same answer.
fn measure(row: &Row) {
    assert_eq!((row.ours)(), (row.theirs)(), "{}", row.name);
    let mut ours = Vec::new();
    let mut theirs = Vec::new();
    for _ in 0..TURNS {
        ours.push(time(row.calls, row.ours));
        theirs.push(time(row.calls, row.theirs));
    }
    let (ours, theirs) = (median(ours) / 1000.0, median(theirs) / 1000.0);
    println!(
        "| {} | {ours:.1} | {theirs:.1} | {:.2} |",
        row.name,
        ours / theirs
    );
}

/// The nine numbers that a function of the library stores.
fn stored(call: impl Fn(&mut [u64]) -> bool) -> [u64; 9] {
    let mut out = [0; 9];
    assert!(call(&mut out));
    out
}

/// Reading, and a judgement with its score.
fn measure_calls(book: &[u8]) {
    measure(&Row {
        name: "reading",
        calls: 2000,
        ours: &|| stored(|out| face::read(black_box(book), out)),
        theirs: &|| baseline::read(black_box(book)),
    });
    measure(&Row {
        name: "one judgement with its score, the book read",
        calls: 500,
        ours: &|| stored(|out| face::judge(black_box(book), 0, out)),
        theirs: &|| baseline::judge(black_box(book), 0),
    });
}

/// A search with none acceptable.
fn measure_search(name: &str, book: &[u8]) {
    measure(&Row {
        name,
        calls: 1,
        ours: &|| stored(|out| face::search(black_box(book), TRIALS, out)),
        theirs: &|| baseline::search(black_box(book), TRIALS),
    });
}

fn main() {
    println!("| Row | proved, µs | baseline, µs | proved / baseline |");
    println!("|---|---|---|---|");
    measure_calls(&books::cut_by_the_fastest());
    measure_search("search, OVER at once", &books::over_at_once());
    measure_search(
        "search, CUT late by fixed lightpaths",
        &books::cut_by_fixed(),
    );
    measure_search(
        "search, CUT late by the fastest digit",
        &books::cut_by_the_fastest(),
    );
}
