//! Good books: a ground of spans, a plan of lightpaths on it, alternatives, then limits.

use super::random::Random;
use crate::book::*;
use crate::judgement::loads;
use crate::numbering::Plan;

/// How large a book is to be: the least and most of each count.
struct Size {
    nodes: (usize, usize),
    extra_spans: (usize, usize),
    extra_lightpaths: (usize, usize),
    movable: (usize, usize),
    for_one: (usize, usize),
}

/// One to four nodes and hardly anything on them.
const TINY: Size = Size {
    nodes: (1, 4),
    extra_spans: (0, 4),
    extra_lightpaths: (0, 3),
    movable: (0, 3),
    for_one: (1, 4),
};
/// As many nodes as the cut-set form can take.
const SMALL: Size = Size {
    nodes: (3, 12),
    extra_spans: (0, 10),
    extra_lightpaths: (0, 10),
    movable: (0, 6),
    for_one: (1, 6),
};
/// A network of a dozen or two.
const MIDDLE: Size = Size {
    nodes: (8, 24),
    extra_spans: (0, 30),
    extra_lightpaths: (0, 40),
    movable: (1, 8),
    for_one: (1, 7),
};
/// Up to all that a book holds.
const LARGE: Size = Size {
    nodes: (20, 64),
    extra_spans: (0, 100),
    extra_lightpaths: (0, 96),
    movable: (2, 8),
    for_one: (1, 7),
};
/// Every count at its bound, or next to it.
const FULL: Size = Size {
    nodes: (63, 64),
    extra_spans: (127, 128),
    extra_lightpaths: (95, 96),
    movable: (8, 8),
    for_one: (7, 7),
};

/// The nodes and spans of a book to be, with a circular order of the nodes.
struct Ground {
    order: Vec<u8>,
    stations: Vec<bool>,
    spans: Vec<Span>,
}

impl Ground {
    /// The stations in the circular order.
    fn stations_in_order(&self) -> Vec<u8> {
        let station = |node: &&u8| self.stations[usize::from(**node)];
        self.order.iter().filter(station).copied().collect()
    }

    /// How many spans each node is from `to`, without the spans in `avoid`.
    fn distances(&self, to: u8, avoid: &[u8]) -> Vec<usize> {
        let mut distances = vec![usize::MAX; self.order.len()];
        distances[usize::from(to)] = 0;
        let mut waiting = std::collections::VecDeque::from([to]);
        while let Some(node) = waiting.pop_front() {
            for (_, next) in self.leaving(node, avoid) {
                if distances[usize::from(next)] == usize::MAX {
                    distances[usize::from(next)] = distances[usize::from(node)] + 1;
                    waiting.push_back(next);
                }
            }
        }
        distances
    }

    /// The spans that leave a node, but for those in `avoid`, with the nodes they lead to.
    fn leaving(&self, node: u8, avoid: &[u8]) -> Vec<(u8, u8)> {
        (0..self.spans.len() as u8)
            .filter(|span| !avoid.contains(span))
            .filter_map(|span| Some((span, self.spans[usize::from(span)].across(node)?)))
            .collect()
    }

    /// Tries a few times to walk a good route; `detour` is how often it needn't come nearer.
    fn route(&self, random: &mut Random, ends: [u8; 2], detour: usize, avoid: &[u8]) -> Route {
        let distances = self.distances(ends[1], avoid);
        (0..4).find_map(|_| self.walk(random, ends, detour, avoid, &distances))
    }

    /// One try at a walk that meets no node twice and keeps the far end within reach.
    fn walk(
        &self,
        random: &mut Random,
        [from, to]: [u8; 2],
        detour: usize,
        avoid: &[u8],
        distances: &[usize],
    ) -> Route {
        let mut met = vec![from];
        let mut route = Vec::new();
        while met[met.len() - 1] != to {
            let present = met[met.len() - 1];
            let mut steps = self.leaving(present, avoid);
            let left = LONGEST_ROUTE - route.len();
            steps.retain(|(_, next)| !met.contains(next) && distances[usize::from(*next)] < left);
            if !random.chance(detour) {
                let nearest = steps.iter().map(|(_, n)| distances[usize::from(*n)]).min();
                steps.retain(|(_, next)| Some(distances[usize::from(*next)]) == nearest);
            }
            if steps.is_empty() {
                return None;
            }
            let &(span, next) = random.pick(&steps);
            route.push(span);
            met.push(next);
        }
        Some(route)
    }

    /// The route along the circular order from one node to a later one, if spans lie there.
    fn along(&self, from: u8, to: u8) -> Route {
        let place = self.order.iter().position(|&node| node == from)?;
        let mut present = from;
        let mut route = Vec::new();
        for step in 1..=LONGEST_ROUTE {
            let next = self.order[(place + step) % self.order.len()];
            // The last such span, so that two nodes with two spans are joined by both.
            let mut found: Vec<(u8, u8)> = self.leaving(present, &route);
            found.retain(|&(_, node)| node == next);
            route.push(found.last()?.0);
            if next == to {
                return Some(route);
            }
            present = next;
        }
        None
    }
}

/// A route, if there is one.
type Route = Option<Vec<u8>>;

/// Draws the nodes, and the spans as a circle, a tree or a scatter with more spans on top.
fn ground(random: &mut Random, size: &Size) -> Ground {
    let nodes = random.between(size.nodes.0, size.nodes.1);
    let mut order: Vec<u8> = (0..nodes as u8).collect();
    random.shuffle(&mut order);
    let percent = *random.pick(&[100, 100, 90, 70, 50, 30, 10]);
    let mut stations: Vec<bool> = (0..nodes).map(|_| random.chance(percent)).collect();
    stations[random.below(nodes)] = true;
    let mut pairs: Vec<[u8; 2]> = Vec::new();
    if nodes > 1 {
        match random.below(10) {
            0..=6 => pairs.extend((0..nodes).map(|i| [order[i], order[(i + 1) % nodes]])),
            7..=8 => pairs.extend((1..nodes).map(|i| [order[i], order[random.below(i)]])),
            _ => (),
        }
        more_pairs(random, size, nodes, &mut pairs);
    }
    let spans = pairs.into_iter().map(|ends| Span { ends, limit: 0 });
    Ground {
        order,
        stations,
        spans: spans.collect(),
    }
}

/// Adds drawn pairs of ends, some of them parallel to earlier ones, and mixes them all.
fn more_pairs(random: &mut Random, size: &Size, nodes: usize, pairs: &mut Vec<[u8; 2]>) {
    for _ in 0..random.between(size.extra_spans.0, size.extra_spans.1) {
        let pair = if !pairs.is_empty() && random.chance(20) {
            *random.pick(pairs)
        } else {
            two_of(random, nodes).map(|node| node as u8)
        };
        pairs.push(pair);
    }
    pairs.truncate(MOST_SPANS);
    random.shuffle(pairs);
    for pair in pairs {
        if random.chance(50) {
            pair.reverse();
        }
    }
}

/// Two different numbers below `bound`, which must be above 1.
fn two_of(random: &mut Random, bound: usize) -> [usize; 2] {
    let one = random.below(bound);
    [one, (one + random.between(1, bound - 1)) % bound]
}

/// Lightpaths from station to station along the circular order, each on spans of its own.
fn circle(ground: &Ground) -> Vec<Lightpath> {
    let stations = ground.stations_in_order();
    let mut lightpaths = Vec::new();
    for (i, &from) in stations.iter().enumerate() {
        let to = stations[(i + 1) % stations.len()];
        if from != to {
            lightpaths.extend(lightpath([from, to], ground.along(from, to)));
        }
    }
    lightpaths
}

/// Lightpaths round all stations in a drawn order, on drawn routes.
fn tour(random: &mut Random, ground: &Ground, detour: usize) -> Vec<Lightpath> {
    let mut stations = ground.stations_in_order();
    random.shuffle(&mut stations);
    let mut lightpaths = Vec::new();
    for (i, &from) in stations.iter().enumerate() {
        let to = stations[(i + 1) % stations.len()];
        if from != to {
            let route = ground.route(random, [from, to], detour, &[]);
            lightpaths.extend(lightpath([from, to], route));
        }
    }
    lightpaths
}

/// A tree of lightpaths, each doubled by a parallel one on other spans where there are some.
fn doubled(random: &mut Random, ground: &Ground) -> Vec<Lightpath> {
    let stations = ground.stations_in_order();
    let mut lightpaths = Vec::new();
    for i in 1..stations.len() {
        let ends = [stations[i], stations[random.below(i)]];
        let first = ground.route(random, ends, 0, &[]);
        let avoid = first.clone().unwrap_or_default();
        let second = ground.route(random, ends, 10, &avoid);
        lightpaths.extend(lightpath(ends, first));
        lightpaths.extend(lightpath(ends, second));
    }
    lightpaths
}

/// A circle, and lightpaths that ride the same spans as parts of it: the shortest rings share
/// spans, so contraction may leave pieces unmerged in books that are acceptable all the same.
fn shadowed(random: &mut Random, ground: &Ground) -> Vec<Lightpath> {
    let round = circle(ground);
    // One lightpath without a shadow is enough to merge the whole circle.
    let percent = *random.pick(&[80, 100, 100, 100]);
    let mut lightpaths = round.clone();
    for first in 0..round.len() {
        if random.chance(percent) {
            lightpaths.push(shadow(&round, first, random.between(1, 3)));
        }
    }
    lightpaths
}

/// One lightpath on the spans of up to `most` that follow each other but don't come full circle.
fn shadow(round: &[Lightpath], first: usize, most: usize) -> Lightpath {
    let mut shadow = round[first].clone();
    for step in 1..most {
        let next = &round[(first + step) % round.len()];
        let follows = shadow.to == next.from && shadow.from != next.to;
        if follows && shadow.route.len() + next.route.len() <= LONGEST_ROUTE {
            shadow.to = next.to;
            shadow.route.extend(&next.route);
        }
    }
    shadow
}

/// A lightpath on a route, if there is a route.
fn lightpath([from, to]: [u8; 2], route: Route) -> Option<Lightpath> {
    route.map(|route| Lightpath { from, to, route })
}

/// Draws the lightpaths: a base that may join all stations, and more between drawn ends.
fn lightpaths(random: &mut Random, size: &Size, ground: &Ground) -> Vec<Lightpath> {
    let detour = *random.pick(&[0, 5, 20, 60, 95]);
    // Many more lightpaths would make rings of their own and merge what shadows keep apart.
    let (mut lightpaths, part) = match random.below(20) {
        0..=6 => (circle(ground), 1),
        7..=9 => (shadowed(random, ground), 16),
        10..=13 => (tour(random, ground, detour), 1),
        14..=16 => (doubled(random, ground), 1),
        _ => (Vec::new(), 1),
    };
    let stations = ground.stations_in_order();
    let wanted = random.between(size.extra_lightpaths.0, size.extra_lightpaths.1);
    for _ in 0..wanted / part {
        if stations.len() < 2 || lightpaths.len() >= MOST_LIGHTPATHS {
            break;
        }
        let ends = match lightpaths.last() {
            Some(last) if random.chance(15) => [last.from, last.to],
            _ => two_of(random, stations.len()).map(|i| stations[i]),
        };
        lightpaths.extend(lightpath(ends, ground.route(random, ends, detour, &[])));
    }
    if random.chance(10) && !lightpaths.is_empty() {
        lightpaths.remove(random.below(lightpaths.len()));
    }
    lightpaths.truncate(MOST_LIGHTPATHS);
    random.shuffle(&mut lightpaths);
    for lightpath in &mut lightpaths {
        if random.chance(50) {
            std::mem::swap(&mut lightpath.from, &mut lightpath.to);
            lightpath.route.reverse();
        }
    }
    lightpaths
}

/// Draws alternatives; at times the LP route becomes one of them and a drawn route takes its place.
fn move_some(random: &mut Random, size: &Size, ground: &Ground, book: &mut Book) {
    let mut numbers: Vec<usize> = (0..book.lightpaths.len()).collect();
    random.shuffle(&mut numbers);
    numbers.truncate(random.between(size.movable.0, size.movable.1));
    numbers.sort();
    let most = random.between(size.for_one.0, size.for_one.1);
    let (detour, hiding) = (
        *random.pick(&[0, 10, 50, 90]),
        *random.pick(&[0, 30, 60, 100, 100]),
    );
    for number in numbers {
        let moved = &mut book.lightpaths[number];
        let mut routes = Vec::new();
        for _ in 0..random.between(size.for_one.0, most) {
            let avoid: &[u8] = if random.chance(50) { &moved.route } else { &[] };
            let route = ground.route(random, [moved.from, moved.to], detour, avoid);
            routes.push(route.unwrap_or_else(|| moved.route.clone()));
        }
        if random.chance(hiding) {
            let hidden = random.below(routes.len());
            std::mem::swap(&mut moved.route, &mut routes[hidden]);
        }
        let lightpath = number as u8;
        let listed = routes.into_iter();
        book.alternatives
            .extend(listed.map(|route| Alternative { lightpath, route }));
    }
}

/// Sets the span limits, by one way for the whole book, from the loads it should fit.
fn limit_spans(random: &mut Random, book: &mut Book, planned: &[u32]) {
    let standing = loads(&Plan::new(book, 0));
    let way = random.below(20);
    for (span, (&planned, &standing)) in planned.iter().zip(&standing).enumerate() {
        let limit = match way {
            0..=2 => 255,
            3..=5 => planned + random.between(1, 3) as u32,
            6..=8 => planned.max(standing),
            9..=12 => planned + random.below(2) as u32,
            13..=14 => planned,
            15..=16 => standing,
            17 => random.below(256) as u32,
            18 => random.below(8) as u32,
            _ => planned + random.between(0, 20) as u32,
        };
        book.spans[span].limit = limit as u8;
    }
    if random.chance(8) && !book.spans.is_empty() {
        let span = random.below(book.spans.len());
        book.spans[span].limit = planned[span].saturating_sub(1) as u8;
    }
}

/// Draws a good book of a size.
fn of_size(random: &mut Random, size: &Size) -> Book {
    let ground = ground(random, size);
    let mut book = Book {
        stations: ground.stations.clone(),
        spans: ground.spans.clone(),
        lightpaths: lightpaths(random, size, &ground),
        alternatives: Vec::new(),
    };
    let planned = loads(&Plan::new(&book, 0));
    move_some(random, size, &ground, &mut book);
    limit_spans(random, &mut book, &planned);
    book
}

/// A good book of any size.
pub fn good(seed: u64) -> Book {
    let mut random = Random::new(seed);
    let size = match random.below(20) {
        0..=2 => TINY,
        3..=8 => SMALL,
        9..=13 => MIDDLE,
        14..=17 => LARGE,
        _ => FULL,
    };
    of_size(&mut random, &size)
}

/// A good book with few enough stations for the cut-set form.
pub fn small(seed: u64) -> Book {
    let mut random = Random::new(seed);
    let size = if random.chance(25) { TINY } else { SMALL };
    of_size(&mut random, &size)
}
