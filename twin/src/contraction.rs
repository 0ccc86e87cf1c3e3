//! The second engine: stations are merged round rings that no single span breaks in two places,
//! and only what is left is judged plainly.

use crate::book::Refusal;
use crate::judgement::{over, read_for_choice, Verdict};
use crate::numbering::Plan;
use std::collections::{BTreeMap, BTreeSet};

/// What contraction makes of a choice.
#[derive(Clone, Debug, PartialEq, Eq)]
pub struct Contracted {
    /// The answer about the choice, the same as the plain judgement's.
    pub verdict: Verdict,
    /// How many rings were merged; a ring counts once, however many pieces it had.
    pub merges: u32,
    /// The pieces left, as sets of stations, by their lowest stations.
    pub pieces: Vec<u64>,
}

/// For each piece that was reached, the least list of lightpath numbers that leads to it.
type Layer = BTreeMap<usize, Vec<usize>>;

/// A plan whose stations are being merged into pieces.
struct Contraction<'a> {
    plan: &'a Plan<'a>,
    /// For each station, the lowest station of its piece, which stands for the piece.
    pieces: Vec<usize>,
}

impl<'a> Contraction<'a> {
    /// Every station a piece of its own.
    fn new(plan: &'a Plan<'a>) -> Contraction<'a> {
        let pieces = (0..plan.book.stations.len()).collect();
        Contraction { plan, pieces }
    }

    /// The numbers of all lightpaths, rising.
    fn numbers(&self) -> std::ops::Range<usize> {
        0..self.plan.book.lightpaths.len()
    }

    /// The pieces at the two ends of a lightpath, that of "from" first.
    fn ends(&self, number: usize) -> [usize; 2] {
        let lightpath = &self.plan.book.lightpaths[number];
        [lightpath.from, lightpath.to].map(|end| self.pieces[usize::from(end)])
    }

    /// The pieces one lightpath farther on than `layer` that weren't met; whole lists are compared.
    fn next_layer(&self, layer: &Layer, met: &BTreeSet<usize>, taken: usize) -> Layer {
        let mut next = Layer::new();
        for number in self.numbers().filter(|&number| number != taken) {
            let [from, to] = self.ends(number);
            for (near, far) in [(from, to), (to, from)] {
                // A lightpath within a piece leads nowhere: its far end was met with its near end.
                let Some(list) = layer.get(&near).filter(|_| !met.contains(&far)) else {
                    continue;
                };
                let longer = [&list[..], &[number]].concat();
                let least = next.entry(far).or_insert_with(|| longer.clone());
                if longer < *least {
                    *least = longer;
                }
            }
        }
        next
    }

    /// The fewest other lightpaths from the "from" piece of the taken one to its "to" piece; of
    /// several such paths the least list.
    fn path(&self, taken: usize) -> Option<Vec<usize>> {
        let [start, goal] = self.ends(taken);
        let mut met = BTreeSet::from([start]);
        let mut layer = Layer::from([(start, Vec::new())]);
        while !layer.is_empty() && !layer.contains_key(&goal) {
            layer = self.next_layer(&layer, &met, taken);
            met.extend(layer.keys());
        }
        layer.remove(&goal)
    }

    /// The taken lightpath and its path, if it joins different pieces and there is a path.
    fn ring(&self, taken: usize) -> Option<Vec<usize>> {
        let [from, to] = self.ends(taken);
        if from == to {
            return None;
        }
        let path = self.path(taken)?;
        Some([&[taken][..], &path].concat())
    }

    /// Whether no span carries two lightpaths of a ring; one route never holds a span twice.
    fn spans_differ(&self, ring: &[usize]) -> bool {
        let mut carried = BTreeSet::new();
        ring.iter()
            .flat_map(|&number| self.plan.routes[number])
            .all(|span| carried.insert(span))
    }

    /// Makes one piece of all pieces of a ring.
    fn merge(&mut self, ring: &[usize]) {
        let merged: BTreeSet<usize> = ring.iter().flat_map(|&number| self.ends(number)).collect();
        for piece in &mut self.pieces {
            if merged.contains(piece) {
                *piece = merged.iter().copied().fold(*piece, usize::min);
            }
        }
    }

    /// One pass from the lowest lightpath, up to the first ring that can be merged; a ring that
    /// can't leaves its lightpath for good in this pass, as no second path is tried for it.
    fn pass(&mut self) -> bool {
        let ring = self
            .numbers()
            .filter_map(|taken| self.ring(taken))
            .find(|ring| self.spans_differ(ring));
        if let Some(ring) = &ring {
            self.merge(ring);
        }
        ring.is_some()
    }

    /// The pieces at the ends of each lightpath that is up, with a span out or with none.
    fn up(&self, out: Option<usize>) -> Vec<[usize; 2]> {
        self.numbers()
            .filter(|&number| !out.is_some_and(|span| self.plan.holds(number, span)))
            .map(|number| self.ends(number))
            .collect()
    }

    /// The stations whose piece is joined to the piece of the lowest station, bit i for node i.
    fn side(&self, out: Option<usize>) -> u64 {
        let up = self.up(out);
        let stations = self.plan.book.station_numbers();
        let mut joined = BTreeSet::from([self.pieces[stations[0]]]);
        let leaves = |joined: &BTreeSet<usize>, [from, to]: &[usize; 2]| {
            joined.contains(from) != joined.contains(to)
        };
        while let Some(ends) = up.iter().find(|ends| leaves(&joined, ends)) {
            joined.extend(ends);
        }
        stations
            .iter()
            .filter(|&&station| joined.contains(&self.pieces[station]))
            .fold(0, |side, &station| side | 1 << station)
    }

    /// What is left, judged plainly over the pieces: SPLIT, CUT or OK with sides in stations.
    fn judge_rest(&self) -> Verdict {
        let all = self.plan.book.station_set();
        let side = self.side(None);
        if side != all {
            return Verdict::Split { side };
        }
        (0..self.plan.book.spans.len())
            .map(|span| (span, self.side(Some(span))))
            .find(|&(_, side)| side != all)
            .map_or(Verdict::Okay, |(span, side)| Verdict::Cut { span, side })
    }

    /// The pieces as sets of stations, by their lowest stations.
    fn sets(&self) -> Vec<u64> {
        let mut sets = BTreeMap::new();
        for station in self.plan.book.station_numbers() {
            *sets.entry(self.pieces[station]).or_insert(0) |= 1 << station;
        }
        sets.into_values().collect()
    }
}

/// Contracts a plan; OVER is handed back as it is and nothing is merged for it.
pub fn contract_plan(plan: &Plan) -> Contracted {
    let mut contraction = Contraction::new(plan);
    let over = over(plan);
    let mut merges = 0;
    while over.is_none() && contraction.pass() {
        merges += 1;
    }
    Contracted {
        verdict: over.unwrap_or_else(|| contraction.judge_rest()),
        merges,
        pieces: contraction.sets(),
    }
}

/// Judges one choice of a book by contraction; refused like the plain judgement.
pub fn contract(bytes: &[u8], choice: u32) -> Result<Contracted, Refusal> {
    let book = read_for_choice(bytes, choice)?;
    Ok(contract_plan(&Plan::new(&book, choice)))
}
