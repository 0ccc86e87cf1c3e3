//! Contraction: its cards, books kept for one rule each, and the plain judgement against it.

mod common;
#[path = "contraction/slow.rs"]
mod slow;

use common::*;
use slow::{Rules, Slow};
use twin::book::Book;
use twin::contraction::contract_plan;
use twin::generate::{good, small, Random};
use twin::hex::from_hex;
use twin::joining::pieces;
use twin::judgement::verdict;
use twin::numbering::{total, Plan};
use twin::writing::encode;
use twin::{contract, judge, read, Contracted, Refusal, Verdict};

/// What is wanted of a contraction.
fn wanted(verdict: Verdict, merges: u32, pieces: &[u64]) -> Result<Contracted, Refusal> {
    Ok(Contracted {
        verdict,
        merges,
        pieces: pieces.to_vec(),
    })
}

/// Contracts choice 0 of a book.
fn standing(book: &Book) -> Result<Contracted, Refusal> {
    contract(&encode(book), 0)
}

#[test]
fn e_is_one_ring_that_shares_span_2_or_not() {
    let cut = Verdict::Cut { span: 2, side: 7 };
    assert_eq!(contract(&e(), 0), wanted(cut, 0, &[1, 2, 4, 8]));
    assert_eq!(contract(&e(), 1), wanted(Verdict::Okay, 1, &[15]));
}

#[test]
fn over_is_handed_back_and_nothing_merged() {
    // Choice 1 of E would merge its ring, were it not for the limit of span 0.
    for (place, span, choice, load, limit) in [(32, 2, 0, 2, 1), (22, 0, 1, 1, 0)] {
        let over = Verdict::Over { span, load, limit };
        let tight = e_with(place, limit as u8);
        assert_eq!(judge(&tight, choice), Ok(over));
        assert_eq!(contract(&tight, choice), wanted(over, 0, &[1, 2, 4, 8]));
    }
    assert_eq!(contract(&e_with(32, 1), 1), wanted(Verdict::Okay, 1, &[15]));
}

#[test]
fn one_station_and_two_without_a_lightpath() {
    let alone = standing(&book(1, &[], &[], &[]));
    assert_eq!(alone, wanted(Verdict::Okay, 0, &[1]));
    let two = standing(&book(2, &[], &[], &[]));
    assert_eq!(two, wanted(Verdict::Split { side: 1 }, 0, &[1, 2]));
}

#[test]
fn refused_like_the_plain_judgement() {
    let books = [
        vec![],
        e()[..74].to_vec(),
        e_spliced(75..75, &[0]),
        e_spliced(66..68, &[4, 2]),
        e(),
    ];
    let refusals = [(1, 0), (1, 73), (9, 75), (7, 66), (12, 0)];
    for (bytes, (number, place)) in books.iter().zip(refusals) {
        assert_eq!(contract(bytes, 2), Err(refusal(number, place)));
        assert_eq!(judge(bytes, 2), Err(refusal(number, place)));
    }
}

#[test]
fn parallel_lightpaths_make_a_ring_of_two() {
    let spans = [[0, 1, 2], [0, 1, 2]];
    let shared = book(2, &spans, &[([0, 1], &[0]), ([0, 1], &[0])], &[]);
    let cut = Verdict::Cut { span: 0, side: 1 };
    assert_eq!(standing(&shared), wanted(cut, 0, &[1, 2]));
    let apart = book(2, &spans, &[([0, 1], &[0]), ([1, 0], &[1])], &[]);
    assert_eq!(standing(&apart), wanted(Verdict::Okay, 1, &[3]));
}

#[test]
fn a_ring_counts_as_one_merge() {
    let spans = [[0, 1, 9], [1, 2, 9], [2, 3, 9], [3, 0, 9]];
    let round: [([u8; 2], &[u8]); 4] = [
        ([0, 1], &[0]),
        ([2, 1], &[1]),
        ([2, 3], &[2]),
        ([3, 0], &[3]),
    ];
    let ring = standing(&book(4, &spans, &round, &[]));
    assert_eq!(ring, wanted(Verdict::Okay, 1, &[15]));
    let open = standing(&book(4, &spans, &round[..3], &[]));
    let cut = Verdict::Cut { span: 0, side: 1 };
    assert_eq!(open, wanted(cut, 0, &[1, 2, 4, 8]));
}

#[test]
fn two_lightpaths_of_a_ring_on_one_span_keep_it_apart() {
    let spans = [[0, 1, 9], [1, 2, 9], [2, 0, 9]];
    let shared: [([u8; 2], &[u8]); 3] = [([0, 1], &[0]), ([1, 2], &[0, 2]), ([2, 0], &[2])];
    let kept = standing(&book(3, &spans, &shared, &[]));
    let cut = Verdict::Cut { span: 0, side: 5 };
    assert_eq!(kept, wanted(cut, 0, &[1, 2, 4]));
}

#[test]
fn what_hangs_on_a_merged_ring_is_judged_over_pieces() {
    // A triangle of 1, 2 and 4, then station 3 on one lightpath; node 0 is passed through.
    let spans = [[1, 2, 9], [2, 4, 9], [4, 1, 9], [4, 3, 9]];
    let mut hung = book(
        5,
        &spans,
        &[
            ([1, 2], &[0]),
            ([2, 4], &[1]),
            ([4, 1], &[2]),
            ([4, 3], &[3]),
        ],
        &[],
    );
    hung.stations[0] = false;
    let side = 1 << 1 | 1 << 2 | 1 << 4;
    let cut = Verdict::Cut { span: 3, side };
    assert_eq!(standing(&hung), wanted(cut, 1, &[side, 8]));
    hung.lightpaths.pop();
    assert_eq!(
        standing(&hung),
        wanted(Verdict::Split { side }, 1, &[side, 8])
    );
}

#[test]
fn an_acceptable_circle_of_pairs_merges_nothing() {
    // Each lightpath has a parallel one on its own span, and this is the shortest way round.
    let spans = [[0, 1, 9], [1, 2, 9], [2, 0, 9]];
    let pairs: [([u8; 2], &[u8]); 6] = [
        ([0, 1], &[0]),
        ([1, 2], &[1]),
        ([2, 0], &[2]),
        ([0, 1], &[0]),
        ([1, 2], &[1]),
        ([2, 0], &[2]),
    ];
    let left = standing(&book(3, &spans, &pairs, &[]));
    assert_eq!(left, wanted(Verdict::Okay, 0, &[1, 2, 4]));
}

/// A book found by drawing and then made smaller, to show one rule.
struct Kept {
    bytes: &'static str,
    verdict: Verdict,
    merges: u32,
    pieces: &'static [u64],
    /// A rule altered, and the merges there are then.
    altered: (Rules, u32),
}

/// The kept books.
const KEPT: [Kept; 9] = [
    // Three parallel lightpaths: the first shares a span with each of the others, which don't
    // share any, but every lightpath's least path is one that it shares a span with.
    Kept {
        bytes:
            "4844050603004e44014e44014e44004e44004e4400535004000953500102095350020409535001040953\
                5003000953500304094c5000010200034c500001030405034c50000103000201454e",
        verdict: Verdict::Okay,
        merges: 0,
        pieces: &[1, 2],
        altered: (Rules::OtherPaths, 1),
    },
    // Acceptable, with a merge and two pieces left.
    Kept {
        bytes:
            "4844030405004e44014e44014e440153500102095350010009535000020953500002094c5000010203004c\
                50020001024c5001020201034c50000201034c5002010100454e",
        verdict: Verdict::Okay,
        merges: 1,
        pieces: &[5, 2],
        altered: (Rules::OtherPaths, 2),
    },
    // Lightpath 0 has the paths 1 and 2 beside it; it shares a span with 2 only.
    Kept {
        bytes:
            "4844040503004e44004e44014e44004e440153500201095350000309535002030953500201095350020009\
                4c5001030200024c500103030304014c500103020302454e",
        verdict: Verdict::Okay,
        merges: 1,
        pieces: &[10],
        altered: (Rules::HighestNumbers, 0),
    },
    // A path read from the "to" end is another one.
    Kept {
        bytes:
            "4844040406004e44014e44014e44014e440153500201095350000309535003020953500100094c50020301\
                024c5002000202014c5003010201034c50010201004c50000301014c500200020003454e",
        verdict: Verdict::Okay,
        merges: 3,
        pieces: &[15],
        altered: (Rules::FromTheFarEnd, 2),
    },
    // So is one whose numbers are put in order.
    Kept {
        bytes:
            "4844040506004e44014e44014e44014e440153500200095350030209535000010953500302095350030009\
                4c50000101024c50020001004c50020301014c5001020202004c50000301044c5003020103454e",
        verdict: Verdict::Cut { span: 2, side: 13 },
        merges: 1,
        pieces: &[13, 2],
        altered: (Rules::NumbersSorted, 2),
    },
    // Lightpath 1 merges 2 and 3; from there lightpath 0 merges all, but 3 and 4 take two merges.
    Kept {
        bytes:
            "4844040406004e44014e44014e44014e440153500001095350030209535000020953500301094c50010001\
                004c500302030300024c50030201014c50030101034c50020001024c500102020002454e",
        verdict: Verdict::Okay,
        merges: 2,
        pieces: &[15],
        altered: (Rules::NoFreshStart, 3),
    },
    // A lower lightpath merges only after a higher one has.
    Kept {
        bytes:
            "4844030304004e44014e44014e44015350000209535000010953500102094c50010001014c50020001004c\
                5002010200014c5001020102454e",
        verdict: Verdict::Okay,
        merges: 2,
        pieces: &[7],
        altered: (Rules::OnePass, 1),
    },
    // All pieces of a triangle are merged at once, not only two of them.
    Kept {
        bytes:
            "4844030303004e44014e44014e44015350000109535000020953500102094c50000101004c50000201014c\
                5002010102454e",
        verdict: Verdict::Okay,
        merges: 1,
        pieces: &[7],
        altered: (Rules::EndsOnly, 2),
    },
    // The span that two lightpaths of the path share counts as well.
    Kept {
        bytes:
            "4844030303004e44014e44014e44015350000109535000020953500001094c50020001014c500201020102\
                4c5001000100454e",
        verdict: Verdict::Cut { span: 1, side: 3 },
        merges: 0,
        pieces: &[1, 2, 4],
        altered: (Rules::PathMayShare, 1),
    },
];

#[test]
fn kept_books_show_each_rule() {
    for kept in KEPT {
        let (rules, altered) = kept.altered;
        let bytes = from_hex(kept.bytes).unwrap();
        let contracted = wanted(kept.verdict, kept.merges, kept.pieces);
        assert_eq!(contract(&bytes, 0), contracted, "{rules:?}");
        assert_eq!(judge(&bytes, 0), Ok(kept.verdict), "{rules:?}");
        let book = read(&bytes).unwrap();
        let plan = Plan::new(&book, 0);
        assert_eq!(Slow::run(&plan, Rules::AsWritten).merges, kept.merges);
        assert_eq!(Slow::run(&plan, rules).merges, altered, "{rules:?}");
        assert_ne!(kept.merges, altered, "{rules:?}");
    }
}

#[test]
fn contraction_agrees_with_the_plain_judgement() {
    let mut random = Random::new(11);
    let mut merged = [0; 4];
    for seed in 0..3000 {
        let book = good(seed);
        for choice in [0, random.below(total(&book) as usize) as u32] {
            let plan = Plan::new(&book, choice);
            let contracted = contract_plan(&plan);
            assert_eq!(contracted.verdict, verdict(&plan), "seed {seed} {choice}");
            let kind = match contracted.verdict {
                Verdict::Over { .. } => 0,
                Verdict::Split { .. } => 1,
                Verdict::Cut { .. } => 2,
                Verdict::Okay => 3,
            };
            merged[kind] += usize::from(contracted.merges > 0);
        }
    }
    assert_eq!(merged[0], 0);
    assert!(merged[1..].iter().all(|&count| count >= 100), "{merged:?}");
}

#[test]
fn contraction_agrees_with_the_slow_engine() {
    let mut random = Random::new(12);
    for seed in 0..4000 {
        let book = small(seed);
        let choice = random.below(total(&book) as usize) as u32;
        let plan = Plan::new(&book, choice);
        let contracted = contract_plan(&plan);
        let mut slow = Slow::run(&plan, Rules::AsWritten);
        slow.pieces.sort_by_key(|piece| piece.trailing_zeros());
        assert_eq!(contracted.merges, slow.merges, "seed {seed} {choice}");
        assert_eq!(contracted.pieces, slow.pieces, "seed {seed} {choice}");
    }
}

#[test]
fn pieces_hold_together_with_any_span_out() {
    for seed in 0..1500 {
        let book = good(seed);
        let plan = Plan::new(&book, 0);
        let contracted = contract_plan(&plan);
        let all = contracted.pieces.iter().fold(0, |all, piece| all | piece);
        assert_eq!(all, book.station_set());
        let fewer = book.station_numbers().len() - contracted.pieces.len();
        assert!(contracted.merges as usize <= fewer);
        for span in 0..book.spans.len() {
            let joined = pieces(&plan, &[span]);
            for piece in &contracted.pieces {
                let lowest = piece.trailing_zeros() as usize;
                let within = |&station: &usize| piece >> station & 1 == 1;
                let mut stations = (0..book.stations.len()).filter(within);
                assert!(stations.all(|station| joined.joined(lowest, station)));
            }
        }
    }
}
