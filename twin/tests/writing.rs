//! Writing and reading back, and what the lent buffer holds.

mod common;

use common::*;
use twin::generate::{damaged, good, numbers, Random};
use twin::numbering::{total, Plan};
use twin::writing::encode;
use twin::{judge, read, write};

#[test]
fn e_written() {
    let mut out = [0xaa; 80];
    assert_eq!(write(&e(), 0, &mut out), Ok(75));
    assert_eq!(out[..75], e());
    assert_eq!(out[75..], [0xaa; 5]);
    let mut out = [0xaa; 80];
    // Choice 1 has a route of one span where E has two, so it is one byte shorter.
    assert_eq!(write(&e(), 1, &mut out), Ok(74));
    assert_eq!(out[..74], e_spliced(65..68, &[1, 3]));
    assert_eq!(out[74..], [0xaa; 6]);
}

#[test]
fn a_buffer_too_short_stays_as_it_was() {
    let mut out = [0xaa; 74];
    assert_eq!(write(&e(), 0, &mut out), Err(refusal(11, 0)));
    assert_eq!(out, [0xaa; 74]);
    assert_eq!(write(&e(), 1, &mut out), Ok(74));
}

#[test]
fn written_books_read_back_with_the_choice_as_choice_0() {
    let mut random = Random::new(5);
    for seed in 0..3000 {
        let book = good(seed);
        let bytes = encode(&book);
        let drawn = numbers(&mut random, &book);
        let mut out = vec![0x5a; drawn.buffer];
        match write(&bytes, drawn.choice, &mut out) {
            Ok(length) => {
                let back = read(&out[..length]).unwrap();
                assert_eq!(
                    Plan::new(&back, 0).routes,
                    Plan::new(&book, drawn.choice).routes
                );
                assert_eq!(judge(&out[..length], 0), judge(&bytes, drawn.choice));
                assert_eq!(back.alternatives, book.alternatives);
                assert_eq!(back.spans, book.spans);
                assert_eq!(back.stations, book.stations);
                assert!(out[length..].iter().all(|&byte| byte == 0x5a));
            }
            Err(refused) => {
                let known = drawn.choice < total(&book);
                assert_eq!(refused, refusal(if known { 11 } else { 12 }, 0));
                assert!(out.iter().all(|&byte| byte == 0x5a));
            }
        }
    }
}

#[test]
fn a_refused_book_leaves_the_buffer() {
    for seed in 0..2000 {
        let bytes = damaged(seed);
        if let Err(fault) = read(&bytes) {
            let mut out = [0x5a; 64];
            assert_eq!(write(&bytes, 0, &mut out), Err(fault));
            assert_eq!(out, [0x5a; 64]);
        }
    }
}
