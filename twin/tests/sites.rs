//! A site down: cards to check by hand, two ways to judge it, and what it says of the verdict.

mod common;

use common::*;
use std::collections::BTreeSet;
use twin::book::Book;
use twin::cutset;
use twin::generate::{damaged, good, small, Random};
use twin::joining;
use twin::judgement::{plan_score, verdict};
use twin::numbering::{total, Plan};
use twin::sites::{left, meets, plan_site, side};
use twin::writing::{chosen_book, encode};
use twin::{judge, read, report, site, Refusal, Site, Verdict};

/// What is wanted of a choice with a node at fault.
fn down(node: usize, side: u64) -> Result<Site, Refusal> {
    Ok(Site::Down { node, side })
}

/// What is wanted of a choice with no node at fault.
const OKAY: Result<Site, Refusal> = Ok(Site::Okay);

/// Judges the sites of choice 0 of a book.
fn standing(book: &Book) -> Result<Site, Refusal> {
    site(&encode(book), 0)
}

/// The verdict on choice 0 of a book.
fn judged(book: &Book) -> Result<Verdict, Refusal> {
    judge(&encode(book), 0)
}

/// A book of which only some nodes are stations.
fn with_stations(mut book: Book, stations: &[usize]) -> Book {
    for (node, station) in book.stations.iter_mut().enumerate() {
        *station = stations.contains(&node);
    }
    book
}

/// A book of stations with two lightpaths between each two ends, each on a span of its own.
fn in_pairs(nodes: usize, ends: &[[u8; 2]]) -> Book {
    let mut made = book(nodes, &[], &[], &[]);
    for &[from, to] in ends {
        for _ in 0..2 {
            let span = made.spans.len() as u8;
            let one = book(0, &[[from, to, 9]], &[([from, to], &[span])], &[]);
            made.spans.extend(one.spans);
            made.lightpaths.extend(one.lightpaths);
        }
    }
    made
}

#[test]
fn e_with_each_node_down() {
    let book = read(&e()).unwrap();
    // Lightpath 3 passes through node 2 by choice 0, and goes straight by choice 1.
    let sides = [(0, [14, 13, 3, 7]), (1, [14, 13, 11, 7])];
    for (choice, sides) in sides {
        let plan = Plan::new(&book, choice);
        assert_eq!([0, 1, 2, 3].map(|node| side(&plan, node)), sides);
    }
    assert_eq!(site(&e(), 0), down(2, 3));
    assert_eq!(site(&e(), 1), OKAY);
}

#[test]
fn stations_and_nothing_else() {
    assert_eq!(standing(&book(1, &[], &[], &[])), OKAY);
    assert_eq!(standing(&book(2, &[], &[], &[])), OKAY);
    assert_eq!(standing(&book(3, &[], &[], &[])), down(0, 2));
    assert_eq!(standing(&book(64, &[], &[], &[])), down(0, 2));
}

#[test]
fn one_station_among_nodes_that_are_passed_through() {
    for station in 0..3 {
        let alone = with_stations(book(3, &line(3), &[], &[]), &[station]);
        assert_eq!(standing(&alone), OKAY);
    }
}

#[test]
fn two_stations_and_no_other_node() {
    let spans = [[0, 1, 2], [0, 1, 2]];
    let three: [([u8; 2], &[u8]); 3] = [([0, 1], &[0]), ([1, 0], &[0]), ([0, 1], &[1])];
    for many in 0..=3 {
        assert_eq!(standing(&book(2, &spans, &three[..many], &[])), OKAY);
    }
}

#[test]
fn two_stations_are_left_by_a_node_that_is_passed_through() {
    // The lightpath of 0 and 2 passes through 1; the second one goes straight.
    let spans = [[0, 1, 9], [1, 2, 9], [0, 2, 9]];
    let two: [([u8; 2], &[u8]); 2] = [([0, 2], &[0, 1]), ([2, 0], &[2])];
    for (many, wanted) in [(0, down(1, 1)), (1, down(1, 1)), (2, OKAY)] {
        let passed = with_stations(book(3, &spans, &two[..many], &[]), &[0, 2]);
        assert_eq!(standing(&passed), wanted);
    }
    // Whether or not anything passes through it.
    let apart = with_stations(book(3, &[], &[], &[]), &[1, 2]);
    assert_eq!(standing(&apart), down(0, 2));
}

#[test]
fn a_node_that_is_passed_through_is_at_fault() {
    // A ring of three, each lightpath on spans of its own, two of them through node 3.
    let spans = [
        [0, 1, 9],
        [1, 3, 9],
        [3, 2, 9],
        [2, 3, 9],
        [3, 0, 9],
        [1, 2, 9],
    ];
    let ring: [([u8; 2], &[u8]); 3] = [([0, 1], &[0]), ([1, 2], &[1, 2]), ([2, 0], &[3, 4])];
    let through = with_stations(book(4, &spans, &ring, &[(1, &[5])]), &[0, 1, 2]);
    let bytes = encode(&through);
    assert_eq!(judge(&bytes, 0), Ok(Verdict::Okay));
    assert_eq!(site(&bytes, 0), down(3, 3));
    // By choice 1 the second lightpath goes straight, and only the third passes through.
    assert_eq!(site(&bytes, 1), OKAY);
}

#[test]
fn a_hub_with_doubled_spokes_is_acceptable_and_at_fault() {
    for (ends, wanted) in [
        ([[0, 1], [0, 2]], down(0, 2)),
        ([[1, 0], [2, 1]], down(1, 1)),
        ([[2, 0], [2, 1]], down(2, 1)),
    ] {
        let hub = in_pairs(3, &ends);
        assert_eq!(judged(&hub), Ok(Verdict::Okay));
        assert_eq!(standing(&hub), wanted);
    }
    let round = in_pairs(3, &[[0, 1], [1, 2], [2, 0]]);
    assert_eq!(standing(&round), OKAY);
}

#[test]
fn the_side_starts_at_the_lowest_station_left() {
    // Station 0 is the hub: 1 and 2 are joined without it, and 3 is not.
    let hub = in_pairs(4, &[[0, 1], [1, 2], [0, 3]]);
    assert_eq!(standing(&hub), down(0, 6));
    // Node 0 is passed through, station 1 is the lowest and the hub.
    let hub = with_stations(in_pairs(4, &[[1, 2], [3, 1]]), &[1, 2, 3]);
    assert_eq!(standing(&hub), down(1, 4));
    // Far up in the set.
    let ends = [[5, 40], [40, 63], [5, 62]];
    let hub = with_stations(in_pairs(64, &ends), &[5, 40, 62, 63]);
    assert_eq!(standing(&hub), down(5, 1 << 40 | 1 << 63));
}

#[test]
fn the_lowest_node_at_fault() {
    for nodes in 3..=64 {
        let spans = line(nodes);
        let hops: Vec<[u8; 1]> = (0..nodes - 1).map(|span| [span]).collect();
        let lightpaths: Vec<([u8; 2], &[u8])> = (hops.iter())
            .map(|hop| ([hop[0], hop[0] + 1], &hop[..]))
            .collect();
        let open = book(usize::from(nodes), &spans, &lightpaths, &[]);
        // Each end of a line may close, and no node between.
        assert_eq!(standing(&open), down(1, 1));
        let mut ring = open.clone();
        let last = nodes - 1;
        let back = book(2, &[[last, 0, 9]], &[([last, 0], &[last])], &[]);
        ring.spans.extend(back.spans);
        ring.lightpaths.extend(back.lightpaths);
        assert_eq!(standing(&ring), OKAY);
    }
}

#[test]
fn a_split_network_is_judged_all_the_same() {
    let halves = in_pairs(4, &[[0, 1], [2, 3]]);
    assert_eq!(judged(&halves), Ok(Verdict::Split { side: 3 }));
    assert_eq!(standing(&halves), down(0, 2));
    // Without station 0, which is alone, the others are joined; without station 1 two are left.
    let alone = in_pairs(3, &[[1, 2]]);
    assert_eq!(judged(&alone), Ok(Verdict::Split { side: 1 }));
    assert_eq!(standing(&alone), down(1, 1));
}

#[test]
fn limits_do_not_matter() {
    for choice in [0, 1] {
        assert_eq!(site(&e_with(32, 1), choice), site(&e(), choice));
        assert_eq!(site(&e_with(22, 0), choice), site(&e(), choice));
    }
    for seed in 0..500 {
        let mut book = good(seed);
        let before = standing(&book);
        for span in &mut book.spans {
            span.limit = 255 - span.limit;
        }
        assert_eq!(standing(&book), before, "seed {seed}");
    }
}

#[test]
fn refused_like_the_judgement() {
    assert_eq!(site(&e(), 2), Err(refusal(12, 0)));
    assert_eq!(site(&e_spliced(66..68, &[4, 2]), 2), Err(refusal(7, 66)));
    for seed in 0..2000 {
        let bytes = damaged(seed);
        for choice in [0, 1, u32::MAX] {
            let refused = judge(&bytes, choice).err();
            assert_eq!(site(&bytes, choice).err(), refused, "seed {seed}");
        }
    }
}

#[test]
fn the_report_has_a_line_after_the_score() {
    let three = encode(&book(3, &[], &[], &[]));
    let listing = "BOOK 3 0 0 0\nSPLIT 0000000000000001\nSCORE 0 0\n\
        SITE 0 0000000000000002\nNONE 1\nEND\n";
    assert_eq!(report(&three), listing);
    let hub = with_stations(
        in_pairs(64, &[[5, 40], [40, 63], [5, 62]]),
        &[5, 40, 62, 63],
    );
    let listing = "BOOK 64 6 6 0\nOK\nSCORE 0 0\nSITE 5 8000010000000000\nFOUND 0 1\nEND\n";
    assert_eq!(report(&encode(&hub)), listing);
    let ring = encode(&chosen_book(&read(&e()).unwrap(), 1));
    let listing = "BOOK 4 5 4 1\nOK\nSCORE 0 0\nSITE OK\nFOUND 0 2\nEND\n";
    assert_eq!(report(&ring), listing);
}

#[test]
fn joining_agrees_with_cut_sets_on_sites() {
    let mut random = Random::new(13);
    // OK, at fault at a station, at fault at a node that is passed through.
    let mut kinds = [0; 3];
    for seed in 0..4000 {
        let book = small(seed);
        let choice = random.below(total(&book) as usize) as u32;
        let plan = Plan::new(&book, choice);
        let told = plan_site(&plan);
        assert_eq!(told, cutset::site(&plan), "seed {seed} {choice}");
        for node in 0..book.stations.len() {
            let side = side(&plan, node);
            assert_eq!(side, cutset::site_side(&plan, node), "seed {seed} {node}");
            let whole = side.count_ones() as usize == left(&book, node).len();
            assert_eq!(whole, cutset::closing(&plan, node).is_empty());
        }
        kinds[match told {
            Site::Okay => 0,
            Site::Down { node, .. } if book.stations[node] => 1,
            Site::Down { .. } => 2,
        }] += 1;
    }
    assert!(kinds.iter().all(|&count| count >= 200), "{kinds:?}");
}

#[test]
fn a_route_meets_its_ends_and_the_ends_of_its_spans() {
    let mut random = Random::new(14);
    for seed in 0..1000 {
        let book = good(seed);
        let plan = Plan::new(&book, random.below(total(&book) as usize) as u32);
        for (number, lightpath) in book.lightpaths.iter().enumerate() {
            let route = plan.routes[number].iter();
            let spans = route.flat_map(|&span| book.spans[usize::from(span)].ends);
            let ends = BTreeSet::from_iter(spans.chain([lightpath.from, lightpath.to]));
            for node in 0..book.stations.len() {
                let met = meets(&plan, number, node);
                assert_eq!(met, ends.contains(&(node as u8)), "seed {seed}");
            }
        }
    }
}

#[test]
fn three_stations_that_can_close_any_site_can_open_any_span() {
    let mut random = Random::new(15);
    let (mut okay, mut over, mut two) = (0, 0, 0);
    for seed in 0..4000 {
        let book = good(seed);
        let plan = Plan::new(&book, random.below(total(&book) as usize) as u32);
        if plan_site(&plan) != Site::Okay {
            continue;
        }
        let judged = verdict(&plan);
        if book.station_numbers().len() < 3 {
            two += usize::from(!matches!(judged, Verdict::Okay | Verdict::Over { .. }));
            continue;
        }
        match judged {
            Verdict::Okay => okay += 1,
            Verdict::Over { .. } => over += 1,
            _ => panic!("seed {seed}: {judged:?}"),
        }
        // OVER hides nothing here: with any span out all are joined, so no pair is at fault.
        let spans = (0..book.spans.len()).map(|span| vec![span]);
        for out in spans.chain([vec![]]) {
            let joined = joining::side(&plan, &out);
            assert_eq!(joined, book.station_set(), "seed {seed} {out:?}");
        }
        assert_eq!(plan_score(&plan).0, 0, "seed {seed}");
    }
    assert!(okay >= 200 && over >= 200, "{okay} {over}");
    // Two stations need not be joined at all.
    assert!(two > 0);
}

#[test]
fn a_written_choice_has_the_same_sites() {
    let mut random = Random::new(16);
    for seed in 0..1000 {
        let book = good(seed);
        let choice = random.below(total(&book) as usize) as u32;
        let chosen = chosen_book(&book, choice);
        assert_eq!(standing(&chosen), site(&encode(&book), choice));
    }
}
