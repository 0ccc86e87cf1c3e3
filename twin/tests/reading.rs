//! Numbers and places of refusal, and the order among faults.

mod common;

use common::*;
use twin::book::LONGEST_BOOK;
use twin::generate::{damaged, good, numbers, Random};
use twin::judgement::ask;
use twin::numbering::total;
use twin::writing::{encode, records};
use twin::{judge, read, score, search, write};

/// Checks that E with one byte altered is refused so.
fn altered(place: usize, byte: u8, number: u8, at: usize) {
    assert_eq!(
        read(&e_with(place, byte)),
        Err(refusal(number, at)),
        "byte {place} := {byte}"
    );
}

#[test]
fn every_cut_of_e_is_1_at_its_record() {
    let starts = [
        0, 6, 9, 12, 15, 18, 23, 28, 33, 38, 43, 49, 55, 61, 68, 73, 75,
    ];
    for length in 0..75 {
        let record = starts.iter().rfind(|&&start| start <= length).unwrap();
        assert_eq!(read(&e()[..length]), Err(refusal(1, *record)), "{length}");
    }
}

#[test]
fn a_lone_wrong_byte_where_a_mark_is_due_is_1() {
    assert_eq!(read(b"X"), Err(refusal(1, 0)));
    assert_eq!(read(b"XX"), Err(refusal(2, 0)));
    assert_eq!(read(b"HD\0"), Err(refusal(1, 0)));
    assert_eq!(read(b"HD\0\0\0\0"), Err(refusal(3, 0)));
}

#[test]
fn marks_and_counts() {
    for start in [0, 6, 9, 18, 43, 68, 73] {
        altered(start, b'X', 2, start);
        altered(start + 1, b'X', 2, start);
    }
    for (place, most) in [(2, 64), (3, 128), (4, 96), (5, 56)] {
        altered(place, most + 1, 3, 0);
        altered(place, 255, 3, 0);
    }
    altered(2, 0, 3, 0);
    altered(2, 3, 2, 15);
    altered(2, 5, 2, 18);
    altered(3, 4, 2, 38);
    altered(4, 3, 2, 61);
    altered(5, 0, 2, 68);
    altered(5, 2, 2, 73);
}

#[test]
fn flags_and_ends() {
    altered(8, 2, 4, 6);
    altered(20, 4, 4, 18);
    altered(21, 0, 4, 18);
    altered(45, 4, 4, 43);
    altered(46, 4, 4, 43);
    altered(46, 0, 4, 43);
    // A node that lightpaths end at is passed through: the first of them is at fault.
    altered(17, 0, 4, 55);
    // The ends come before the length.
    let mut both = e_with(46, 0);
    both[47] = 0;
    assert_eq!(read(&both), Err(refusal(4, 43)));
}

#[test]
fn no_station_comes_before_the_next_mark() {
    assert_eq!(read(b"HD\x01\0\0\0ND\0"), Err(refusal(10, 9)));
    assert_eq!(read(b"HD\x01\0\0\0ND\0XX"), Err(refusal(10, 9)));
    assert_eq!(read(b"HD\x02\0\0\0ND\0ND\x02"), Err(refusal(4, 9)));
}

#[test]
fn lengths_spans_and_walks() {
    altered(47, 0, 6, 43);
    altered(47, 17, 6, 43);
    // These two are placed at the span with the fault.
    altered(48, 5, 5, 48);
    altered(48, 1, 7, 48);
    // The whole route is tested for known spans before it is walked.
    assert_eq!(read(&e_spliced(66..68, &[0, 5])), Err(refusal(5, 67)));
    // The bytes of the route must be there before their values count.
    assert_eq!(read(&e_spliced(66..75, &[5])), Err(refusal(1, 61)));
    // Meeting the far end and coming back to it.
    let back = e_spliced(47..49, &[3, 0, 1, 4]);
    assert_eq!(read(&back), Err(refusal(7, 50)));
    let there = e_spliced(47..49, &[3, 0, 0, 0]);
    assert_eq!(read(&there), Err(refusal(7, 49)));
    // Spans that do not touch, that lead back to the start, and walks that end elsewhere, the second after it met "to".
    for (spans, place) in [
        ([4, 2], 66),
        ([2, 0], 67),
        ([2, 2], 67),
        ([2, 1], 67),
        ([3, 0], 67),
    ] {
        assert_eq!(read(&e_spliced(66..68, &spans)), Err(refusal(7, place)));
    }
}

#[test]
fn alternatives() {
    altered(70, 4, 8, 68);
    altered(71, 0, 6, 68);
    altered(72, 5, 5, 72);
    altered(72, 4, 7, 72);
    let mut both = e_with(70, 4);
    both[71] = 0;
    assert_eq!(read(&both), Err(refusal(8, 68)));
    assert_eq!(read(&both[..71]), Err(refusal(1, 68)));
    // Only from "from" to "to".
    let reversed = e_spliced(71..73, &[2, 4, 2]);
    assert_eq!(read(&reversed), Err(refusal(7, 72)));
    let mut falling = e_spliced(73..73, &[b'A', b'L', 2, 1, 2]);
    falling[5] = 2;
    assert_eq!(read(&falling), Err(refusal(8, 73)));
    assert_eq!(read(b"HD\x01\0\0\x01ND\x01AL\0\x01"), Err(refusal(8, 9)));
}

#[test]
fn bounds_on_alternatives() {
    let spans = [[0, 1, 9]];
    let lightpaths = vec![([0, 1], &[0][..]); 12];
    let many = |numbers: &[u8]| {
        let alternatives: Vec<(u8, &[u8])> = numbers.iter().map(|&n| (n, &[0][..])).collect();
        book(2, &spans, &lightpaths, &alternatives)
    };
    let start = 6 + 2 * 3 + 5 + 12 * 6;
    assert!(read(&encode(&many(&[3; 7]))).is_ok());
    assert_eq!(
        read(&encode(&many(&[3; 8]))),
        Err(refusal(8, start + 7 * 5))
    );
    // Eight different lightpaths may move, whatever their numbers.
    let eight = many(&[0, 2, 4, 6, 8, 9, 10, 11]);
    assert!(read(&encode(&eight)).is_ok());
    let nine = many(&[0, 1, 2, 4, 6, 8, 9, 10, 10, 11]);
    assert_eq!(read(&encode(&nine)), Err(refusal(8, start + 9 * 5)));
}

#[test]
fn the_longest_good_book() {
    let spans: Vec<[u8; 3]> = (0..128).map(|i| [i % 64, (i + 1) % 64, 200]).collect();
    let route: Vec<u8> = (0..16).collect();
    let lightpaths = vec![([0, 16], &route[..]); 96];
    let alternatives: Vec<(u8, &[u8])> = (0..56).map(|i| (i / 7, &route[..])).collect();
    let longest = book(64, &spans, &lightpaths, &alternatives);
    let bytes = encode(&longest);
    assert_eq!(bytes.len(), LONGEST_BOOK);
    assert_eq!(read(&bytes), Ok(longest.clone()));
    assert_eq!(total(&longest), 16_777_216);
    assert_eq!(judge(&bytes, 16_777_216), Err(refusal(12, 0)));
    assert!(judge(&bytes, 16_777_215).is_ok());
    assert_eq!(score(&bytes, 16_777_215), Ok((1536, 0)));
}

#[test]
fn the_order_among_refusals_of_calls() {
    let bad = e_with(0, 0);
    let mut none = [];
    assert_eq!(judge(&bad, 9), Err(refusal(2, 0)));
    assert_eq!(score(&bad, 9), Err(refusal(2, 0)));
    assert_eq!(ask(&bad, 9, 9), Err(refusal(2, 0)));
    assert_eq!(search(&bad, 0), Err(refusal(2, 0)));
    assert_eq!(write(&bad, 9, &mut none), Err(refusal(2, 0)));
    assert_eq!(judge(&e(), 2), Err(refusal(12, 0)));
    assert_eq!(score(&e(), u32::MAX), Err(refusal(12, 0)));
    assert_eq!(ask(&e(), 2, 5), Err(refusal(12, 0)));
    assert_eq!(write(&e(), 2, &mut none), Err(refusal(12, 0)));
    assert_eq!(ask(&e(), 1, 5), Err(refusal(13, 0)));
    assert_eq!(ask(&e(), 1, u32::MAX), Err(refusal(13, 0)));
    assert_eq!(write(&e(), 1, &mut none), Err(refusal(11, 0)));
    assert_eq!(ask(&e(), 0, 2), Ok((7, false)));
    assert_eq!(ask(&e(), 1, 2), Ok((15, true)));
}

#[test]
fn good_books_read_back_as_they_were_made() {
    for seed in 0..4000 {
        let book = good(seed);
        let bytes = encode(&book);
        assert!(bytes.len() <= LONGEST_BOOK);
        assert_eq!(read(&bytes), Ok(book), "seed {seed}");
    }
}

#[test]
fn every_proper_start_of_a_good_book_is_1_at_its_record() {
    for seed in 0..200 {
        let book = good(seed);
        let bytes = encode(&book);
        let mut start = 0;
        for record in records(&book) {
            for length in start..start + record.len() {
                assert_eq!(read(&bytes[..length]), Err(refusal(1, start)));
            }
            start += record.len();
        }
    }
}

#[test]
fn the_place_never_lies_past_the_book_and_later_bytes_never_matter() {
    let mut random = Random::new(7);
    for seed in 0..20_000 {
        let bytes = damaged(seed);
        let Err(fault) = read(&bytes) else { continue };
        assert!(fault.place <= bytes.len());
        if fault.number != 1 {
            let longer = [&bytes[..], &[random.byte()]].concat();
            assert_eq!(read(&longer), Err(fault));
        }
        assert_eq!(judge(&bytes, 0), Err(fault));
        assert_eq!(search(&bytes, 0), Err(fault));
    }
}

#[test]
fn drawn_numbers_are_refused_as_ordered() {
    let mut random = Random::new(11);
    for seed in 0..2000 {
        let book = good(seed);
        let bytes = encode(&book);
        let drawn = numbers(&mut random, &book);
        let known = drawn.choice < total(&book);
        let asked = ask(&bytes, drawn.choice, drawn.span);
        if !known {
            assert_eq!(judge(&bytes, drawn.choice), Err(refusal(12, 0)));
            assert_eq!(asked, Err(refusal(12, 0)));
        } else if drawn.span as usize >= book.spans.len() {
            assert_eq!(asked, Err(refusal(13, 0)));
        } else {
            assert!(asked.is_ok());
        }
    }
}
