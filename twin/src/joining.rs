//! Joined stations: those between which a chain of lightpaths runs.

use crate::numbering::Plan;

/// The pieces into which lightpaths join the nodes; each node points towards its piece's root.
pub struct Pieces {
    parents: Vec<usize>,
}

impl Pieces {
    /// Every node a piece of its own.
    pub fn apart(nodes: usize) -> Pieces {
        Pieces {
            parents: (0..nodes).collect(),
        }
    }

    /// The node that stands for the whole piece of `node`.
    pub fn root(&self, node: usize) -> usize {
        let mut at = node;
        while self.parents[at] != at {
            at = self.parents[at];
        }
        at
    }

    /// Makes one piece of the pieces of two nodes; the lower root stays.
    pub fn join(&mut self, one: usize, other: usize) {
        let (one, other) = (self.root(one), self.root(other));
        self.parents[one.max(other)] = one.min(other);
    }

    /// Whether two nodes are in one piece.
    pub fn joined(&self, one: usize, other: usize) -> bool {
        self.root(one) == self.root(other)
    }
}

/// The pieces with some spans out: those lightpaths are up that ride none of them.
pub fn pieces(plan: &Plan, out: &[usize]) -> Pieces {
    let mut pieces = Pieces::apart(plan.book.stations.len());
    for (number, lightpath) in plan.book.lightpaths.iter().enumerate() {
        // Each lightpath goes down by its own route: a parallel one elsewhere stays up.
        if !out.iter().any(|&span| plan.holds(number, span)) {
            pieces.join(usize::from(lightpath.from), usize::from(lightpath.to));
        }
    }
    pieces
}

/// The side with some spans out: the stations joined to the lowest station, bit i for node i.
pub fn side(plan: &Plan, out: &[usize]) -> u64 {
    let pieces = pieces(plan, out);
    let stations = plan.book.station_numbers();
    let lowest = stations[0];
    stations
        .iter()
        .filter(|&&station| pieces.joined(lowest, station))
        .fold(0, |side, &station| side | 1 << station)
}
