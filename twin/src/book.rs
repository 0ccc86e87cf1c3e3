//! The route book as data.

/// The most nodes a book may have; the fewest are 1.
pub const MOST_NODES: usize = 64;
/// The most spans a book may have.
pub const MOST_SPANS: usize = 128;
/// The most lightpaths a book may have.
pub const MOST_LIGHTPATHS: usize = 96;
/// The most alternatives a book may have in all.
pub const MOST_ALTERNATIVES: usize = 56;
/// The most alternatives one lightpath may have.
pub const MOST_FOR_ONE: usize = 7;
/// The most lightpaths that may have alternatives.
pub const MOST_MOVABLE: usize = 8;
/// The most spans a route may have; the fewest are 1.
pub const LONGEST_ROUTE: usize = 16;
/// The bytes of the longest good book.
pub const LONGEST_BOOK: usize = 3976;

/// Why a call is not served: the number of the refusal and the place of the fault.
#[derive(Clone, Copy, Debug, PartialEq, Eq)]
pub struct Refusal {
    /// The number of the refusal, 1 to 13.
    pub number: u8,
    /// The offset in the book, or 0 for refusals that lie outside it.
    pub place: usize,
}

/// A span: its two different end nodes and how many lightpaths may share it.
#[derive(Clone, Debug, PartialEq, Eq)]
pub struct Span {
    /// The two nodes it runs between, as the book orders them.
    pub ends: [u8; 2],
    /// The wavelength limit.
    pub limit: u8,
}

impl Span {
    /// The end across from `node`, if `node` is an end of this span.
    pub fn across(&self, node: u8) -> Option<u8> {
        match self.ends {
            [near, far] if near == node => Some(far),
            [far, near] if near == node => Some(far),
            _ => None,
        }
    }
}

/// A lightpath: its end stations and the route of its LP record.
#[derive(Clone, Debug, PartialEq, Eq)]
pub struct Lightpath {
    /// The station where every route of it starts.
    pub from: u8,
    /// The station where every route of it finishes.
    pub to: u8,
    /// The span numbers in the order they are walked.
    pub route: Vec<u8>,
}

/// An alternative: another route for one lightpath.
#[derive(Clone, Debug, PartialEq, Eq)]
pub struct Alternative {
    /// The number of the lightpath it may stand in for.
    pub lightpath: u8,
    /// The span numbers in the order they are walked.
    pub route: Vec<u8>,
}

/// A route book; everything is numbered from 0 in book order.
#[derive(Clone, Debug, PartialEq, Eq)]
pub struct Book {
    /// For each node, whether it is a station (else it is passed through).
    pub stations: Vec<bool>,
    /// The spans.
    pub spans: Vec<Span>,
    /// The lightpaths.
    pub lightpaths: Vec<Lightpath>,
    /// The alternatives, by lightpath in numbers that never fall.
    pub alternatives: Vec<Alternative>,
}

impl Book {
    /// The numbers of all stations, rising.
    pub fn station_numbers(&self) -> Vec<usize> {
        (0..self.stations.len())
            .filter(|&node| self.stations[node])
            .collect()
    }

    /// The set of all stations, bit i for node i.
    pub fn station_set(&self) -> u64 {
        self.station_numbers()
            .iter()
            .fold(0, |set, &node| set | 1 << node)
    }

    /// The place in `route` of the span at which its walk from `from` to `to` fails: the first that does not lead on to a node not yet met,
    /// or the last if the walk ends elsewhere.
    pub fn stray(&self, from: u8, to: u8, route: &[u8]) -> Option<usize> {
        let mut met = vec![from];
        for (place, &span) in route.iter().enumerate() {
            let present = met[met.len() - 1];
            match self.spans[usize::from(span)].across(present) {
                Some(next) if !met.contains(&next) => met.push(next),
                _ => return Some(place),
            }
        }
        let last = route.len() - 1;
        (met[met.len() - 1] != to).then_some(last)
    }
}
