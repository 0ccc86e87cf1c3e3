//! The proved library, for the programs that hold it against another or time it.

/// Full-size books, of which no choice is acceptable.
pub mod books;
/// The operations, as safe functions.
pub mod face;
/// The calls.
mod linked;
