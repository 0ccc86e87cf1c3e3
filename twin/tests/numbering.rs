//! Each way to pick a listed route for every lightpath has exactly one number.

mod common;

use common::*;
use std::collections::BTreeSet;
use twin::generate::small;
use twin::numbering::{digits, movables, number, routes, total, Digits};

/// All digit strings of a book, by counting with the sizes alone.
fn all_digits(sizes: &[u32]) -> Vec<Digits> {
    let mut all = vec![[0; 8]];
    for (place, &size) in sizes.iter().enumerate() {
        all = (0..size as u8)
            .flat_map(|digit| {
                all.iter().map(move |digits| {
                    let mut digits: Digits = *digits;
                    digits[place] = digit;
                    digits
                })
            })
            .collect();
    }
    all
}

#[test]
fn numbers_and_digit_strings_match_one_to_one() {
    for seed in 0..2000 {
        let book = small(seed);
        let total = total(&book);
        if total > 2000 {
            continue;
        }
        let sizes: Vec<u32> = movables(&book)
            .iter()
            .map(|movable| movable.size())
            .collect();
        let strings = all_digits(&sizes);
        assert_eq!(strings.len(), total as usize);
        let numbers: BTreeSet<u32> = strings.iter().map(|d| number(&book, d)).collect();
        assert_eq!(numbers, (0..total).collect());
        for choice in 0..total {
            assert_eq!(number(&book, &digits(&book, choice)), choice);
        }
    }
}

#[test]
fn the_lowest_movable_lightpath_is_the_fastest_digit() {
    let spans = [[0, 1, 9], [0, 1, 9], [0, 1, 9]];
    let lightpaths = [([0, 1], &[0][..]), ([0, 1], &[0][..]), ([0, 1], &[0][..])];
    let alternatives = [(0, &[1][..]), (0, &[2][..]), (2, &[1][..])];
    let book = book(2, &spans, &lightpaths, &alternatives);
    assert_eq!(total(&book), 6);
    let wanted = [[0, 0], [1, 0], [2, 0], [0, 1], [1, 1], [2, 1]];
    for (choice, [first, second]) in wanted.into_iter().enumerate() {
        let digits = digits(&book, choice as u32);
        assert_eq!(digits, [first, second, 0, 0, 0, 0, 0, 0]);
        assert_eq!(routes(&book, &digits), [&[first][..], &[0], &[second]]);
    }
}

#[test]
fn nothing_movable_has_one_choice() {
    let book = book(1, &[], &[], &[]);
    assert_eq!(total(&book), 1);
    assert_eq!(digits(&book, 0), [0; 8]);
}
