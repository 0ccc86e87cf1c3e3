//! Several spans out at once: cards to check by hand, two ways to tell who is joined, and what may be
//! taken off a list without asking again.

mod common;

use common::*;
use twin::book::{Book, MOST_SPANS};
use twin::cutset;
use twin::generate::{damaged, good, small, Random};
use twin::joining::side;
use twin::numbering::{total, Plan};
use twin::writing::encode;
use twin::{ask, ask_set, judge, Refusal};

/// The set of some numbers, bit i for number i.
fn set(numbers: &[usize]) -> u128 {
    numbers.iter().fold(0, |set, &number| set | 1 << number)
}

/// Asks about a set.
fn asked(bytes: &[u8], choice: u32, set: u128) -> Result<(u64, bool), Refusal> {
    ask_set(bytes, choice, set as u64, (set >> 64) as u64)
}

/// Asks about a set of spans, all of which the book has.
fn told(book: &Book, choice: u32, set: u128) -> (u64, bool) {
    asked(&encode(book), choice, set).unwrap()
}

/// Draws some numbers below a count, which is not 0; one may come twice.
fn some(random: &mut Random, most: usize, count: usize) -> Vec<usize> {
    let many = random.below(most + 1);
    (0..many).map(|_| random.below(count)).collect()
}

/// Draws a choice of a book.
fn choice(random: &mut Random, book: &Book) -> u32 {
    random.below(total(book) as usize) as u32
}

/// The railway of docs/WITHDRAWN.md, with its lightpaths 0 to 2 and these behind them.
fn railway(rest: &[([u8; 2], &[u8])]) -> Vec<u8> {
    let ends = [[0, 1], [1, 2], [2, 3], [3, 5], [5, 0], [3, 4], [4, 5]];
    let spans = ends.map(|[one, other]| [one, other, 2]);
    let first: [([u8; 2], &[u8]); 3] = [([0, 1], &[0]), ([1, 3], &[1, 2]), ([3, 4], &[5])];
    let mut railway = book(6, &spans, &[&first[..], rest].concat(), &[]);
    railway.stations = [0, 1, 2, 3, 4, 5]
        .map(|node| ![2, 5].contains(&node))
        .into();
    encode(&railway)
}

#[test]
fn e_with_several_spans_out() {
    // Lightpath 3 rides spans 2 and 4 by choice 0, and span 3 by choice 1.
    let cards: [(&[usize], [u64; 2]); 8] = [
        (&[], [15, 15]),
        (&[2], [7, 15]),
        (&[3, 4], [15, 15]),
        (&[0, 1], [13, 13]),
        (&[0, 3], [15, 1]),
        (&[0, 2], [1, 9]),
        (&[2, 4], [7, 15]),
        (&[0, 1, 2, 3, 4], [1, 1]),
    ];
    for (spans, sides) in cards {
        for (choice, side) in [0, 1].into_iter().zip(sides) {
            let wanted = Ok((side, side == 15));
            assert_eq!(
                asked(&e(), choice, set(spans)),
                wanted,
                "{spans:?} {choice}"
            );
        }
    }
}

#[test]
fn every_bit_is_for_the_span_of_its_number() {
    let spans = [[0, 1, 9]; MOST_SPANS];
    for number in 0..MOST_SPANS {
        let one = book(2, &spans, &[([0, 1], &[number as u8])], &[]);
        assert_eq!(told(&one, 0, set(&[number])), (1, false));
        assert_eq!(told(&one, 0, !set(&[number])), (3, true));
    }
}

#[test]
fn a_number_that_is_not_below_the_count_is_refused() {
    for number in 5..MOST_SPANS {
        for others in [0, 4, 31] {
            let beyond = asked(&e(), 1, set(&[number]) | others);
            assert_eq!(beyond, Err(refusal(13, 0)), "{number}");
        }
    }
    let none = encode(&book(1, &[], &[], &[]));
    assert_eq!(asked(&none, 0, 0), Ok((1, true)));
    assert_eq!(asked(&none, 0, 1), Err(refusal(13, 0)));
}

#[test]
fn the_book_and_the_choice_are_refused_first() {
    for set in [0, set(&[4]), u128::MAX] {
        assert_eq!(asked(&e(), 2, set), Err(refusal(12, 0)));
        let stray = e_spliced(66..68, &[4, 2]);
        assert_eq!(asked(&stray, 2, set), Err(refusal(7, 66)));
    }
    for seed in 0..2000 {
        let bytes = damaged(seed);
        for choice in [0, 1, u32::MAX] {
            if let Err(refused) = judge(&bytes, choice) {
                assert_eq!(asked(&bytes, choice, u128::MAX), Err(refused));
            }
        }
    }
}

#[test]
fn the_lists_of_the_page() {
    let (three, four) = (([4, 0], &[6, 4][..]), ([0, 3], &[4, 3][..]));
    let shipped = railway(&[three, four]);
    let good = |book: &[u8], list: &[usize]| asked(book, 0, set(list)).unwrap().1;
    let (joined, parted): (&[&[usize]], &[&[usize]]) = (
        &[&[1, 2, 3], &[1, 3], &[2], &[], &[1, 2], &[1], &[5], &[0]],
        &[&[1, 2, 3, 5], &[1, 2, 4], &[0, 1]],
    );
    for list in joined {
        assert!(good(&shipped, list), "{list:?}");
    }
    for list in parted {
        assert!(!good(&shipped, list), "{list:?}");
    }
    // Stations 0 and 1 are parted from 3 and 4.
    let halves = asked(&shipped, 0, set(&[1, 2, 4]));
    assert_eq!(halves, Ok((3, false)));
    // A lightpath more, from 1 to 4 by spans 0, 4 and 6; and without lightpath 3.
    let more = railway(&[three, four, ([1, 4], &[0, 4, 6])]);
    assert!(good(&more, &[1, 2, 3]));
    assert!(!good(&railway(&[four]), &[1, 2, 3]));
}

#[test]
fn none_and_one_are_the_state_with_nothing_out_and_the_question_about_a_span() {
    let mut random = Random::new(17);
    for seed in 0..1000 {
        let book = good(seed);
        let (bytes, choice) = (encode(&book), choice(&mut random, &book));
        let whole = side(&Plan::new(&book, choice), &[]);
        let nothing = (whole, whole == book.station_set());
        assert_eq!(told(&book, choice, 0), nothing, "seed {seed}");
        for span in 0..book.spans.len() {
            let one = ask(&bytes, choice, span as u32);
            let set = set(&[span]);
            assert_eq!(asked(&bytes, choice, set), one, "seed {seed} {span}");
        }
    }
}

#[test]
fn joining_agrees_with_cut_sets_on_sets() {
    let mut random = Random::new(18);
    // Joined, parted by some span of the set alone, parted by several together.
    let mut kinds = [0; 3];
    for seed in 0..4000 {
        let book = small(seed);
        let plan = Plan::new(&book, choice(&mut random, &book));
        if book.spans.is_empty() || !cutset::parting(&plan, &[]).is_empty() {
            continue;
        }
        let out = some(&mut random, 4, book.spans.len());
        let joined = side(&plan, &out);
        assert_eq!(joined, cutset::side(&plan, &out), "seed {seed} {out:?}");
        let whole = cutset::parting(&plan, &out).is_empty();
        assert_eq!(joined == book.station_set(), whole, "seed {seed}");
        let alone = |&span: &usize| !cutset::parting(&plan, &[span]).is_empty();
        kinds[match whole {
            true => 0,
            false if out.iter().any(alone) => 1,
            false => 2,
        }] += 1;
    }
    assert!(kinds.iter().all(|&count| count >= 100), "{kinds:?}");
}

#[test]
fn a_part_of_a_list_leaves_no_less_joined() {
    let mut random = Random::new(19);
    // The list joined, and the part alone.
    let mut kinds = [0; 2];
    for seed in 0..4000 {
        let book = good(seed);
        if book.spans.is_empty() {
            continue;
        }
        let choice = choice(&mut random, &book);
        let list = set(&some(&mut random, 6, book.spans.len()));
        let [low, high] = [random.bits(), random.bits()].map(u128::from);
        let part = list & (high << 64 | low);
        let loss = set(&some(&mut random, 1, book.spans.len()));
        for loss in [0, loss] {
            let (less, all) = told(&book, choice, list | loss);
            let (more, still) = told(&book, choice, part | loss);
            assert_eq!(less & !more, 0, "seed {seed}");
            assert!(still || !all, "seed {seed}");
            kinds[0] += usize::from(all && part != list);
            kinds[1] += usize::from(still && !all);
        }
    }
    assert!(kinds.iter().all(|&count| count >= 200), "{kinds:?}");
}
