//! The search over choices in their numbered order.

use crate::book::{Book, Refusal};
use crate::judgement::{verdict, Verdict};
use crate::numbering::{total, Plan};
use crate::reading::read;

/// What the search says.
#[derive(Clone, Copy, Debug, PartialEq, Eq)]
pub enum Answer {
    /// The least acceptable choice below both the trial limit and T.
    Found {
        /// The number of the choice.
        choice: u32,
        /// T.
        total: u32,
    },
    /// The trial limit is at least T and no choice is acceptable.
    None {
        /// T.
        total: u32,
    },
    /// The trial limit ran out before an acceptable choice came.
    More {
        /// The trial limit.
        limit: u32,
        /// T.
        total: u32,
    },
}

/// Searches a book that has been read.
pub fn search_book(book: &Book, limit: u32) -> Answer {
    let total = total(book);
    let acceptable = |&choice: &u32| verdict(&Plan::new(book, choice)) == Verdict::Okay;
    match (0..limit.min(total)).find(acceptable) {
        Some(choice) => Answer::Found { choice, total },
        None if limit >= total => Answer::None { total },
        None => Answer::More { limit, total },
    }
}

/// Searches a book's choices from number 0, at most `limit` of them.
pub fn search(bytes: &[u8], limit: u32) -> Result<Answer, Refusal> {
    Ok(search_book(&read(bytes)?, limit))
}
