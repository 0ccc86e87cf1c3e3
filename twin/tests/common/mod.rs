//! The example book E and its variants.

#![allow(dead_code)]

use twin::book::{Alternative, Book, Lightpath, Refusal, Span};
use twin::hex::from_hex;

/// The bytes of E as printed.
const E: &str = "48 44 04 05 04 01
4e 44 01 4e 44 01 4e 44 01 4e 44 01
53 50 00 01 02 53 50 01 02 02 53 50 02 03 02
53 50 03 00 02 53 50 00 02 02
4c 50 00 01 01 00 4c 50 01 02 01 01
4c 50 02 03 01 02 4c 50 03 00 02 02 04
41 4c 03 01 03
45 4e";

/// The example book E.
pub fn e() -> Vec<u8> {
    let digits: String = E.split_whitespace().collect();
    from_hex(&digits).unwrap()
}

/// E with one byte altered.
pub fn e_with(place: usize, byte: u8) -> Vec<u8> {
    let mut book = e();
    book[place] = byte;
    book
}

/// E with the bytes from one offset to another put in place of its own.
pub fn e_spliced(range: std::ops::Range<usize>, bytes: &[u8]) -> Vec<u8> {
    let mut book = e();
    book.splice(range, bytes.iter().copied());
    book
}

/// A refusal.
pub fn refusal(number: u8, place: usize) -> Refusal {
    Refusal { number, place }
}

/// A book of stations only, with spans, lightpaths and alternatives as given.
pub fn book(
    nodes: usize,
    spans: &[[u8; 3]],
    lightpaths: &[([u8; 2], &[u8])],
    alternatives: &[(u8, &[u8])],
) -> Book {
    Book {
        stations: vec![true; nodes],
        spans: spans
            .iter()
            .map(|&[one, other, limit]| Span {
                ends: [one, other],
                limit,
            })
            .collect(),
        lightpaths: lightpaths
            .iter()
            .map(|&([from, to], route)| Lightpath {
                from,
                to,
                route: route.to_vec(),
            })
            .collect(),
        alternatives: alternatives
            .iter()
            .map(|&(lightpath, route)| Alternative {
                lightpath,
                route: route.to_vec(),
            })
            .collect(),
    }
}

/// A line of nodes, each joined to the next by one span.
pub fn line(nodes: u8) -> Vec<[u8; 3]> {
    (1..nodes).map(|node| [node - 1, node, 9]).collect()
}
