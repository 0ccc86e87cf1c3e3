//! The writer of the chosen book.

use crate::book::{Book, Refusal};
use crate::judgement::read_for_choice;
use crate::numbering::Plan;

/// One record: its mark, its fixed fields, its spans.
fn record(mark: &[u8; 2], fields: &[u8], spans: &[u8]) -> Vec<u8> {
    [&mark[..], fields, spans].concat()
}

/// The records of a book in their order, HD first and EN last.
pub fn records(book: &Book) -> Vec<Vec<u8>> {
    let counts = [
        book.stations.len() as u8,
        book.spans.len() as u8,
        book.lightpaths.len() as u8,
        book.alternatives.len() as u8,
    ];
    let mut records = vec![record(b"HD", &counts, &[])];
    for &station in &book.stations {
        records.push(record(b"ND", &[u8::from(station)], &[]));
    }
    for span in &book.spans {
        let fields = [span.ends[0], span.ends[1], span.limit];
        records.push(record(b"SP", &fields, &[]));
    }
    for lightpath in &book.lightpaths {
        let fields = [lightpath.from, lightpath.to, lightpath.route.len() as u8];
        records.push(record(b"LP", &fields, &lightpath.route));
    }
    for alternative in &book.alternatives {
        let fields = [alternative.lightpath, alternative.route.len() as u8];
        records.push(record(b"AL", &fields, &alternative.route));
    }
    records.push(record(b"EN", &[], &[]));
    records
}

/// The bytes of a book.
pub fn encode(book: &Book) -> Vec<u8> {
    records(book).concat()
}

/// The book with each LP route replaced by the chosen one and all else kept.
pub fn chosen_book(book: &Book, choice: u32) -> Book {
    let plan = Plan::new(book, choice);
    let mut chosen = book.clone();
    for (lightpath, route) in chosen.lightpaths.iter_mut().zip(&plan.routes) {
        lightpath.route = route.to_vec();
    }
    chosen
}

/// Writes the chosen book into `out` and gives its length; refused, `out` stays as it was.
pub fn write(bytes: &[u8], choice: u32, out: &mut [u8]) -> Result<usize, Refusal> {
    let book = read_for_choice(bytes, choice)?;
    let written = encode(&chosen_book(&book, choice));
    let place = out.get_mut(..written.len()).ok_or(Refusal {
        number: 11,
        place: 0,
    })?;
    place.copy_from_slice(&written);
    Ok(written.len())
}
