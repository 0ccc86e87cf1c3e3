//! The cut-set form: every two-sided division of the stations is tried, so for small books only.

use crate::judgement::{over, Verdict};
use crate::numbering::Plan;
use crate::sites::Site;

/// The most stations for which all divisions are tried.
pub const MOST_STATIONS: usize = 12;

/// Some stations, rising, as a set.
fn set(stations: &[usize]) -> u64 {
    stations.iter().fold(0, |set, &station| set | 1 << station)
}

/// Every two-sided division of some stations, rising, as the side that holds the lowest of them;
/// the other isn't empty.
pub fn divisions(stations: &[usize]) -> Vec<u64> {
    assert!(stations.len() <= MOST_STATIONS, "too many divisions");
    let Some((lowest, others)) = stations.split_first() else {
        return Vec::new();
    };
    let mut sides = vec![1 << lowest];
    for station in others {
        let with: Vec<u64> = sides.iter().map(|side| side | 1 << station).collect();
        sides.extend(with);
    }
    sides.retain(|&side| side != set(stations));
    sides
}

/// The cut set of a division: the lightpaths with one end on each side.
pub fn crossing(plan: &Plan, side: u64) -> Vec<usize> {
    let within = |end: u8| side >> end & 1 == 1;
    (0..plan.book.lightpaths.len())
        .filter(|&number| {
            let lightpath = &plan.book.lightpaths[number];
            within(lightpath.from) != within(lightpath.to)
        })
        .collect()
}

/// The divisions whose whole cut set some spans carry; with no span, those with an empty cut set.
pub fn parting(plan: &Plan, out: &[usize]) -> Vec<u64> {
    let carried = |number: usize| out.iter().any(|&span| plan.holds(number, span));
    divisions(&plan.book.station_numbers())
        .into_iter()
        .filter(|&side| crossing(plan, side).into_iter().all(carried))
        .collect()
}

/// The side with some spans out: what every parting division keeps with the lowest station.
pub fn side(plan: &Plan, out: &[usize]) -> u64 {
    parting(plan, out)
        .into_iter()
        .fold(plan.book.station_set(), |side, part| side & part)
}

/// The verdict on a plan, by cut sets; empty cut sets belong to SPLIT.
pub fn verdict(plan: &Plan) -> Verdict {
    if let Some(over) = over(plan) {
        return over;
    }
    if !parting(plan, &[]).is_empty() {
        let side = side(plan, &[]);
        return Verdict::Split { side };
    }
    (0..plan.book.spans.len())
        .find(|&span| !parting(plan, &[span]).is_empty())
        .map_or(Verdict::Okay, |span| Verdict::Cut {
            span,
            side: side(plan, &[span]),
        })
}

/// F by cut sets: riders of a span whose ends some division parts that the span wholly carries.
pub fn score(plan: &Plan) -> u32 {
    let mut pairs = 0;
    for span in 0..plan.book.spans.len() {
        let parting = parting(plan, &[span]);
        for (rider, lightpath) in plan.book.lightpaths.iter().enumerate() {
            let parts = |side: &u64| (side >> lightpath.from ^ side >> lightpath.to) & 1 == 1;
            if plan.holds(rider, span) && parting.iter().any(parts) {
                pairs += 1;
            }
        }
    }
    pairs
}

/// The stations other than a node, rising.
fn others(plan: &Plan, node: usize) -> Vec<usize> {
    let station = |&other: &usize| other != node && plan.book.stations[other];
    (0..plan.book.stations.len()).filter(station).collect()
}

/// The divisions of the stations other than a node whose whole cut set goes down with it. A walk
/// meets just the ends of its spans.
pub fn closing(plan: &Plan, node: usize) -> Vec<u64> {
    let touches = |&span: &u8| {
        let ends = plan.book.spans[usize::from(span)].ends;
        ends.contains(&(node as u8))
    };
    let gone = |number: usize| plan.routes[number].iter().any(touches);
    divisions(&others(plan, node))
        .into_iter()
        .filter(|&side| crossing(plan, side).into_iter().all(gone))
        .collect()
}

/// The side with a node down: what every division that it closes keeps with the lowest station.
pub fn site_side(plan: &Plan, node: usize) -> u64 {
    closing(plan, node)
        .into_iter()
        .fold(set(&others(plan, node)), |side, part| side & part)
}

/// The answer about the sites of a plan, by cut sets.
pub fn site(plan: &Plan) -> Site {
    (0..plan.book.stations.len())
        .find(|&node| !closing(plan, node).is_empty())
        .map_or(Site::Okay, |node| Site::Down {
            node,
            side: site_side(plan, node),
        })
}
