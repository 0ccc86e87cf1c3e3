//! Seeded making of books: the same seed always gives the same book.

/// Books with faults.
pub mod damaged;
/// Good books.
pub mod good;
/// Choice numbers, span numbers, trial limits and buffers to go with a book.
pub mod numbers;
/// Numbers drawn from a seed.
pub mod random;

pub use damaged::damaged;
pub use good::{good, small};
pub use numbers::{numbers, Numbers};
pub use random::Random;
