//! Numbers to go with a book in a call, in range and out of it.

use super::random::Random;
use crate::book::Book;
use crate::numbering::total;
use crate::writing::{chosen_book, encode};

/// The numbers of one set of calls.
#[derive(Clone, Copy, Debug, PartialEq, Eq)]
pub struct Numbers {
    /// A choice number; not below T in about a quarter of draws.
    pub choice: u32,
    /// A span number; not below the span count in about a quarter of draws.
    pub span: u32,
    /// A trial limit; never so high that a search would take all day.
    pub limit: u32,
    /// The length of a buffer to lend; too short for the written book in about a third of draws.
    pub buffer: usize,
}

/// The most trials a drawn limit leads to.
pub const MOST_TRIALS: u32 = 65_536;

/// A number that is mostly below `bound` and otherwise at it or anywhere above.
fn about(random: &mut Random, bound: u32) -> u32 {
    match random.below(8) {
        0 => bound,
        1 => bound.saturating_add(random.bits() as u32),
        2 => bound.saturating_sub(1),
        3 => 0,
        _ => random.below(bound.max(1) as usize) as u32,
    }
}

/// A trial limit around 0, T, and the most trials.
fn limit(random: &mut Random, total: u32) -> u32 {
    let few = random.below(100) as u32;
    match random.below(12) {
        0 => random.below(3) as u32,
        1 => few,
        2 => total.saturating_sub(1).min(MOST_TRIALS),
        3 => total.min(MOST_TRIALS),
        4 => total.saturating_add(1).min(MOST_TRIALS),
        5 => random.below(total.min(MOST_TRIALS) as usize + 1) as u32,
        6 | 7 if total <= MOST_TRIALS => random.bits() as u32,
        8 if total <= MOST_TRIALS => u32::MAX,
        _ => 1024 + few,
    }
}

/// Draws the numbers to go with a good book.
pub fn numbers(random: &mut Random, book: &Book) -> Numbers {
    let total = total(book);
    let choice = about(random, total);
    let written = encode(&chosen_book(book, choice.min(total - 1))).len();
    let buffer = match random.below(6) {
        0 => random.below(written),
        1 => written - 1,
        2 | 3 => written,
        _ => written + random.below(200),
    };
    Numbers {
        choice,
        span: about(random, book.spans.len() as u32),
        limit: limit(random, total),
        buffer,
    }
}
