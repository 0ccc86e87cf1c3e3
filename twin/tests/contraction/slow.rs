//! Contraction once more, slowly: every path of fewest lightpaths is listed before one is picked,
//! and the rules can be altered, to show which of them are seen in the number of merges.

use twin::judgement::over;
use twin::numbering::Plan;

/// The rules to go by: those of the requirement, or with one of them altered.
#[derive(Clone, Copy, Debug, PartialEq, Eq)]
pub enum Rules {
    /// As the requirement has them.
    AsWritten,
    /// Of several paths the greatest list is picked.
    HighestNumbers,
    /// Lists are read from the "to" end.
    FromTheFarEnd,
    /// The numbers of a path are put in order before they are compared.
    NumbersSorted,
    /// After a merge the pass goes on to the next lightpath.
    NoFreshStart,
    /// After the first pass there is no other.
    OnePass,
    /// If the picked path won't do, the others as short are tried.
    OtherPaths,
    /// Only the pieces at the taken lightpath's ends are merged.
    EndsOnly,
    /// Lightpaths of the path may share a span, if the taken one keeps off it.
    PathMayShare,
}

/// A run of the slow engine.
pub struct Slow<'a> {
    plan: &'a Plan<'a>,
    rules: Rules,
    /// The pieces, as sets of stations.
    pub pieces: Vec<u64>,
    /// How many rings were merged.
    pub merges: u32,
}

impl<'a> Slow<'a> {
    /// Contracts a plan by the rules.
    pub fn run(plan: &'a Plan<'a>, rules: Rules) -> Slow<'a> {
        let stations = plan.book.station_numbers();
        let mut slow = Slow {
            plan,
            rules,
            pieces: stations.iter().map(|&station| 1 << station).collect(),
            merges: 0,
        };
        while over(plan).is_none() && slow.pass() && rules != Rules::OnePass {}
        slow
    }

    /// The piece that holds a station.
    fn piece(&self, station: u8) -> u64 {
        let holds = |piece: &&u64| **piece >> station & 1 == 1;
        *self.pieces.iter().find(holds).unwrap()
    }

    /// The pieces at a lightpath's ends.
    fn ends(&self, number: usize) -> [u64; 2] {
        let lightpath = &self.plan.book.lightpaths[number];
        [self.piece(lightpath.from), self.piece(lightpath.to)]
    }

    /// Every walk one lightpath longer than the given ones that comes to no piece twice.
    fn longer(&self, walks: &[Walk], taken: usize) -> Vec<Walk> {
        let mut longer = Vec::new();
        for (list, met) in walks {
            for number in 0..self.plan.book.lightpaths.len() {
                let [from, to] = self.ends(number);
                let far = match met.last() {
                    Some(&last) if last == from => to,
                    Some(&last) if last == to => from,
                    _ => continue,
                };
                if number != taken && !met.contains(&far) {
                    let list = [&list[..], &[number]].concat();
                    longer.push((list, [&met[..], &[far]].concat()));
                }
            }
        }
        longer
    }

    /// All paths of fewest other lightpaths between the ends of the taken one, in no order.
    fn shortest(&self, taken: usize) -> Vec<Vec<usize>> {
        let [start, goal] = self.ends(taken);
        let mut walks = vec![(Vec::new(), vec![start])];
        while start != goal && !walks.is_empty() {
            walks = self.longer(&walks, taken);
            let arrived = |walk: &&Walk| walk.1.last() == Some(&goal);
            let paths: Vec<Vec<usize>> =
                walks.iter().filter(arrived).map(|w| w.0.clone()).collect();
            if !paths.is_empty() {
                return paths;
            }
        }
        Vec::new()
    }

    /// The paths that the rules let try for a lightpath: mostly one, or none if there is none.
    fn tried(&self, taken: usize) -> Vec<Vec<usize>> {
        let mut paths = self.shortest(taken);
        paths.sort_by_cached_key(|path| {
            let mut key = path.clone();
            match self.rules {
                Rules::FromTheFarEnd => key.reverse(),
                Rules::NumbersSorted => key.sort(),
                _ => (),
            }
            key
        });
        if self.rules == Rules::HighestNumbers {
            paths.reverse();
        }
        if self.rules != Rules::OtherPaths {
            paths.truncate(1);
        }
        paths
    }

    /// Whether every span carries at most one lightpath of the ring.
    fn good(&self, taken: usize, path: &[usize]) -> bool {
        let ring = [path, &[taken]].concat();
        (0..self.plan.book.spans.len()).all(|span| {
            let carried = |number: &&usize| self.plan.holds(**number, span);
            let shares = ring.iter().filter(carried).count() > 1;
            let spared = self.rules == Rules::PathMayShare && !self.plan.holds(taken, span);
            !shares || spared
        })
    }

    /// Merges the pieces of the ring.
    fn merge(&mut self, taken: usize, path: &[usize]) {
        let ends = self.ends(taken);
        let mut merged = ends[0] | ends[1];
        if self.rules != Rules::EndsOnly {
            for &number in path {
                let ends = self.ends(number);
                merged |= ends[0] | ends[1];
            }
        }
        self.pieces.retain(|piece| piece & merged == 0);
        self.pieces.push(merged);
        self.merges += 1;
    }

    /// One pass, up to the first merge if the rules say so; whether anything was merged.
    fn pass(&mut self) -> bool {
        let mut merged = false;
        for taken in 0..self.plan.book.lightpaths.len() {
            let tried = self.tried(taken);
            if let Some(path) = tried.iter().find(|path| self.good(taken, path)) {
                self.merge(taken, path);
                merged = true;
                if !matches!(self.rules, Rules::NoFreshStart | Rules::OnePass) {
                    break;
                }
            }
        }
        merged
    }
}

/// The lightpaths of a walk and the pieces it came to, its start first.
type Walk = (Vec<usize>, Vec<u64>);
