//! Calls one function of the proved library, once, on a full-size book: `once judge` or `once search`. `./gristvalley count` runs it under a
//! program that counts instructions.

use compare::{books, face};
use std::hint::black_box;

/// The trial limit of the search.
const TRIALS: u32 = 1024;

fn main() {
    let call = std::env::args().nth(1).unwrap_or_default();
    let book = books::cut_by_the_fastest();
    let book = black_box(&book[..]);
    let mut out = [0; 9];
    let stored = match call.as_str() {
        "judge" => face::judge(book, 0, &mut out),
        "search" => face::search(book, TRIALS, &mut out),
        _ => panic!("once takes 'judge' or 'search'"),
    };
    assert!(stored && black_box(out)[0] != 0);
}
