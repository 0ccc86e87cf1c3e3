//! Route books: reader, judgement of a choice and of its sites, score, search, writer and report.

#![warn(missing_docs)]

/// The route book as data, its bounds, and the refusal.
pub mod book;
/// The judgement by contraction of rings, a second engine.
pub mod contraction;
/// The cut-set form of the judgement, for small books.
pub mod cutset;
/// Seeded making of good and damaged books.
pub mod generate;
/// Bytes as lower-case hex digits and back.
pub mod hex;
/// Stations joined by chains of lightpaths.
pub mod joining;
/// The verdict, the score and the questions about spans.
pub mod judgement;
/// The numbering of choices.
pub mod numbering;
/// The reader of route books.
pub mod reading;
/// The listing of the report program.
pub mod reporting;
/// The search over choices.
pub mod searching;
/// The judgement of sites: one node down.
pub mod sites;
/// The writer of the chosen book.
pub mod writing;

pub use book::{Book, Refusal};
pub use contraction::{contract, Contracted};
pub use judgement::{ask, ask_set, judge, score, Verdict};
pub use reading::read;
pub use reporting::report;
pub use searching::{search, Answer};
pub use sites::{site, Site};
pub use writing::write;
