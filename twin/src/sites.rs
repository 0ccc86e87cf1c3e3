//! A site down: one node closed, with every lightpath that ends at it or passes through it.

use crate::book::{Book, Refusal};
use crate::joining::Pieces;
use crate::judgement::read_for_choice;
use crate::numbering::Plan;

/// The answer about the sites of a choice.
#[derive(Clone, Copy, Debug, PartialEq, Eq)]
pub enum Site {
    /// The lowest node without which some other station is not joined.
    Down {
        /// The node, a station or passed through.
        node: usize,
        /// The stations joined to the lowest station left, with that node down.
        side: u64,
    },
    /// Whichever node is down, the other stations are joined.
    Okay,
}

/// The stations left with a node down, rising.
pub fn left(book: &Book, node: usize) -> Vec<usize> {
    let mut left = book.station_numbers();
    left.retain(|&station| station != node);
    left
}

/// Whether the chosen route of a lightpath meets a node, at an end or on the way.
pub fn meets(plan: &Plan, lightpath: usize, node: usize) -> bool {
    let mut route = plan.routes[lightpath].iter();
    let mut present = Some(plan.book.lightpaths[lightpath].from);
    while let Some(at) = present {
        if usize::from(at) == node {
            return true;
        }
        present = route
            .next()
            .and_then(|&span| plan.book.spans[usize::from(span)].across(at));
    }
    false
}

/// The pieces with a node down.
pub fn pieces(plan: &Plan, node: usize) -> Pieces {
    let mut pieces = Pieces::apart(plan.book.stations.len());
    for (number, lightpath) in plan.book.lightpaths.iter().enumerate() {
        let (from, to) = (usize::from(lightpath.from), usize::from(lightpath.to));
        if !meets(plan, number, node) {
            pieces.join(from, to);
        }
    }
    pieces
}

/// The side with a node down: the stations joined to the lowest one left; 0 if none is left.
pub fn side(plan: &Plan, node: usize) -> u64 {
    let pieces = pieces(plan, node);
    let left = left(plan.book, node);
    left.iter()
        .filter(|&&station| pieces.joined(left[0], station))
        .fold(0, |side, &station| side | 1 << station)
}

/// The answer about the sites of a plan; one that is split or over is judged all the same.
pub fn plan_site(plan: &Plan) -> Site {
    let nodes = 0..plan.book.stations.len();
    nodes
        .map(|node| (node, side(plan, node)))
        // One station left is joined to itself, and with none left both counts are 0.
        .find(|&(node, side)| side.count_ones() as usize != left(plan.book, node).len())
        .map_or(Site::Okay, |(node, side)| Site::Down { node, side })
}

/// Judges the sites of one choice of a book; refused like the other judgement.
pub fn site(bytes: &[u8], choice: u32) -> Result<Site, Refusal> {
    let book = read_for_choice(bytes, choice)?;
    Ok(plan_site(&Plan::new(&book, choice)))
}
